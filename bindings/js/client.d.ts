/** What is told of a listener's view: a child, with the key of the one before it, or the whole view. */
export type Change =
    | { k: "removed"; key: string; old: Json }
    | { k: "added" | "moved" | "changed"; key: string; value: Json; after: string | null }
    | { k: "value"; value: Json };
export type Kind = Change["k"];
/** Each kind, with its bit in the module's call. */
export const KINDS: { readonly [kind in Kind]: number };
/** What a seat is told, as docs/FORMATS.md has it. */
export type Item =
    | { k: "listened" | "unlistened"; listener: number }
    | { k: "wrote" | "asked"; id: number }
    | { k: "batch"; listener: number; changes: Change[] }
    | { k: "ok"; id: number }
    | { k: "no"; id: number; why: string }
    | { k: "cancelled"; listener: number; why: string };
export type Json = null | boolean | number | string | Json[] | { [key: string]: Json };
/** Why something is refused: `code` is a layer and a name, as `tree/NotWhole`. */
export class DatabaseError extends Error {
    readonly code: string;
    constructor(code: string, message?: string);
}
/** A core that lines of a script drive, with its source of push ids. */
export class Core {
    /** How many lines had none of the forms. */
    readonly badLines: number;
    /** How many bytes its memory has. */
    readonly memory: number;
    /** Does what a line asks for, without the line feed at its end, and answers what it prints: of a bad line `bad line N` and a line feed. */
    line(line: string | Uint8Array): string;
    close(): void;
}
/** A client with one seat, since a page has one thread. A call that is refused throws a DatabaseError, and changes nothing. */
export class Client {
    /** `ring` is how many items wait inside the module for `items()`, from 1 to 65,536, and 64 where it is left out. Those beyond wait outside of it, and no call is refused. */
    constructor(ring?: number);
    /** How many bytes its memory has. */
    readonly memory: number;
    /** Registers a listener, and answers its number. The query is the member `q` of the message that listens, or an order alone, as `{"order":"/score"}`; none is all of the path. */
    listen(path: string, query?: string): number;
    /** From now on a listener is told changes of these kinds alone. Without `value` a batch costs by what has changed, not by what the listener shows. */
    want(listener: number, kinds: Kind[]): void;
    unlisten(listener: number): void;
    /** Sets a tree, which is JSON, at a path, and answers the number of the request. */
    set(path: string, tree: string): number;
    /** Sets several trees in one write: entries are JSON, an object of trees by their paths. */
    update(entries: string): number;
    remove(path: string): number;
    /** Asks the server to set a tree when the connection ends. */
    onDisconnect(path: string, tree: string): number;
    onDisconnectUpdate(entries: string): number;
    /** Drops what was to be written at and below a path when the connection ends. */
    cancelDisconnect(path: string): number;
    /** A connection to the server stands. */
    connected(): void;
    /** The connection has ended. */
    disconnected(): void;
    /** Takes a message of the server. False where it is none, or the client can't take it. */
    receive(message: string | Uint8Array): boolean;
    /** Takes out the messages that are to be sent, one after another. */
    outgoing(): Generator<string, void>;
    /** Takes what the seat is told, in order, until nothing waits. */
    items(): Generator<Item, void>;
    /** The listens that are kept at the server, a line each. */
    cover(): string;
    /** The next push id, for a moment in milliseconds since 1970 and twelve numbers below 64: the moment now, and drawn at random. */
    pushKey(now?: number, random?: Uint8Array): string;
    close(): void;
}
