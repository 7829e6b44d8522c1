// ML-DSA with the module inside, for bundlers and where there is no file to read.
import { CODE } from "./code.js";
import { loader } from "./core.js";

export { MlDsaError, isSupported, oids } from "./core.js";

/** Loads the module, and gives the three parameter sets. */
export const load = loader({ inside: CODE });
