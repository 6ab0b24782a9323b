// Starts the program that elmc wrote to out.js, and prints what it sends on its port `price`.
const app = require("./out.js").Elm.Main.init({ flags: null });

app.ports.price.subscribe((value) => console.log("price " + JSON.stringify(value)));
