// Starts the program that elmc wrote to out.js with one coupon, sends it three orders, and prints what it sends.
const app = require("./out.js").Elm.Main.init({ flags: [["SPRING", 1]] });

for (const port of ["totals", "refused"]) {
  app.ports[port].subscribe((value) => console.log(port + " " + JSON.stringify(value)));
}
app.ports.orders.send({ id: 1, lines: [{ cents: 500, count: 2 }], coupon: "SPRING" });
app.ports.orders.send({ id: 2, lines: [{ cents: 500, count: 2 }], coupon: "SPRING" });
app.ports.orders.send({ id: 3, lines: [{ cents: 120, count: 1 }, { cents: 80, count: 3 }], coupon: null });
