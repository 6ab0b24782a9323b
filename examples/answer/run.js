// Starts the program that elmc wrote to out.js, and prints what it sends on its port `out`.
const app = require("./out.js").Elm.Main.init({ flags: null });

app.ports.out.subscribe((value) => console.log("out " + JSON.stringify(value)));
