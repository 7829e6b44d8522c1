/** The same as `mldsa`, with the module inside: reads no file and fetches nothing, unless `load` is told to. */
export * from "./mldsa.js";
