/**
 * From a TypeScript file to running JavaScript, by way of the program `oxt`.
 */
export { OxtError, OxtOptionError, OxtPrintError, OxtProgramError, OxtRefusal, OxtSyntaxError } from "./src/errors.js";
export { parse } from "./src/parse/index.js";
export { print } from "./src/print/index.js";
export { register } from "./src/load/register.js";
export { transform, transformFiles, transformSync } from "./src/transform.js";
