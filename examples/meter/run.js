// Starts the program that elmc wrote to out.js with its first reading, and prints what it sends on its port `reading`.
const app = require("./out.js").Elm.Main.init({ flags: 120 });

app.ports.reading.subscribe((value) => console.log("reading " + JSON.stringify(value)));
