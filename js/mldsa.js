// ML-DSA with the module mldsa.wasm that lies beside this file.
import { loader } from "./core.js";

export { MlDsaError, isSupported, oids } from "./core.js";

/** Loads the module, and gives the three parameter sets. */
export const load = loader({ beside: () => import.meta.url });
