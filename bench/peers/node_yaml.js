// The yaml package of node beside the others: node_yaml.js COMMAND FILE, where COMMAND is format or load.
const fs = require("fs");
const yaml = require(process.env.NODE_YAML || "yaml");

const [command, path] = process.argv.slice(2);
const text = fs.readFileSync(path, "utf8");
if (command === "events") process.exit(1);
else {
  for (const document of yaml.parseAllDocuments(text)) {
    if (command === "format") process.stdout.write(document.toString());
    else document.toJS({ maxAliasCount: -1 });
  }
}
