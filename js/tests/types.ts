// Uses that have to be well typed, and below each mark one that must not be.
import { MlDsaError, isSupported, load, oids } from "mldsa";
import type { MlDsa, KeyPair, MessageHasher, Source } from "mldsa";
import * as inline from "mldsa/inline";
import { KeyFileError, fingerprint, readPrivateKey, readPublicKey, writePrivateKey, writePublicKey } from "mldsa/keys";

export async function uses(bytes: Uint8Array, source: Source): Promise<boolean> {
    const loaded = await load();
    const { mlDsa44, mlDsa65, mlDsa87 } = loaded;
    const sets: MlDsa[] = [mlDsa44, mlDsa65, mlDsa87, (await inline.load(bytes)).mlDsa44, (await load(source)).mlDsa65];
    const pair: KeyPair = sets[0].keygen();
    const drawn: Uint8Array = sets[0].keygen().seed;
    const given: Uint8Array | undefined = drawn.length > 0 ? drawn : undefined;
    sets[0].isPair(sets[0].keygen(given).privateKey);
    const signature: Uint8Array = mlDsa44.sign(pair.privateKey, bytes, { context: bytes, random: bytes });
    const hasher: MessageHasher = mlDsa44.messageHasher(pair.publicKey, { context: bytes }).update(bytes);
    const mark: string = await fingerprint(loaded, writePublicKey(mlDsa44, pair.publicKey));
    const { set, publicKey } = readPublicKey(loaded, bytes);
    const which: 44 | 65 | 87 = set;
    const own: MlDsa = loaded[`mlDsa${set}`];
    const { seed } = readPrivateKey(loaded, writePrivateKey(mlDsa44, pair.privateKey));
    const again: Uint8Array = seed ?? publicKey;
    const error: Error = new KeyFileError(mark);
    await load({ href: "https://localhost/mldsa.wasm" });
    await load({ ok: true, arrayBuffer: async () => new ArrayBuffer(which) });

    // @ts-expect-error: of a seed that is given nothing is returned
    sets[0].keygen(drawn).seed;
    // @ts-expect-error: a context as bytes
    mlDsa44.sign(pair.privateKey, bytes, bytes);
    // @ts-expect-error: an option of another name
    mlDsa44.verify(pair.publicKey, bytes, signature, { ctx: bytes });
    // @ts-expect-error: verifying takes no random bytes
    mlDsa44.verify(pair.publicKey, bytes, signature, { random: bytes });
    // @ts-expect-error: an argument too many
    mlDsa44.isPair(pair.privateKey, {});
    // @ts-expect-error: no such function
    oids["SHA-1"];
    // @ts-expect-error: it is read only
    oids["SHA-256"] = bytes;
    // @ts-expect-error: no promise of the sets
    readPublicKey(load(), bytes);
    // @ts-expect-error: not one set
    readPrivateKey(mlDsa44, bytes);
    // @ts-expect-error: not all sets
    writePublicKey(loaded, bytes);
    // @ts-expect-error: no buffer
    readPublicKey(loaded, new ArrayBuffer(5));
    // @ts-expect-error: no number is a place
    await load(5);

    return isSupported() && error instanceof MlDsaError && own.verifyMu(publicKey, hasher.mu(), signature);
}
