// Reads a YAML stream with the package yaml, and writes its documents as a JSON list in which all scalars are strings.
const yaml = require("yaml");
const input = require("fs").readFileSync(0, "utf8");
const documents = yaml.parseAllDocuments(input, { schema: "failsafe" });
for (const document of documents) {
  if (document.errors.length > 0) throw document.errors[0];
}
console.log(JSON.stringify(documents.map((document) => document.toJS())));
