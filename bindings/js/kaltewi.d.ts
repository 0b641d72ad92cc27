import { DatabaseError } from "./client.js";
export { DatabaseError };

/** Any JSON. Numbers are whole, from -9,007,199,254,740,991 to 9,007,199,254,740,991; null stands for nothing. */
export type Value = null | boolean | number | string | Value[] | { [key: string]: Value };
export type Unsubscribe = () => void;
export type EventType = "value" | "child_added" | "child_changed" | "child_moved" | "child_removed";
export interface ListenOptions {
    /** The listener ends once it was told something. */
    readonly onlyOnce?: boolean;
}
export interface DatabaseOptions {
    /** The WebSocket to use; a page's own, and Node's from 22 on, where it is left out. */
    WebSocket?: new (url: string) => object;
}
/** A client of one tree, with a connection that is made again where it ends. */
export class Database {
    constructor(url: string, options?: DatabaseOptions);
    readonly url: string;
    private readonly client: unknown;
}
/** The children of a path, or those of them that calls of a query name. */
export class Query {
    protected constructor();
    readonly database: Database;
    readonly ref: DatabaseReference;
    isEqual(other: Query | null): boolean;
    toString(): string;
    toJSON(): string;
}
export class DatabaseReference extends Query {
    readonly key: string | null;
    readonly parent: DatabaseReference | null;
    readonly root: DatabaseReference;
}
export interface ThenableReference extends DatabaseReference, Pick<Promise<DatabaseReference>, "then" | "catch"> {}
/** What stood at a place at one moment. */
export class DataSnapshot {
    private constructor();
    readonly ref: DatabaseReference;
    readonly key: string | null;
    readonly size: number;
    exists(): boolean;
    /** The value. An object is given as an array where more than half of the places up to its last are there. */
    val(): any;
    toJSON(): any;
    child(path: string): DataSnapshot;
    hasChild(path: string): boolean;
    hasChildren(): boolean;
    /** The children in the query's order, until a call answers true; whether one did. */
    forEach(call: (child: DataSnapshot) => boolean | void): boolean;
}
/** What the server is to do once the connection ends. */
export interface OnDisconnect {
    set(value: Value): Promise<void>;
    update(values: { [path: string]: Value }): Promise<void>;
    remove(): Promise<void>;
    /** Drops what was asked for at and below the path. */
    cancel(): Promise<void>;
}
declare const constraint: unique symbol;
/** One of the calls that make a query. */
export interface QueryConstraint {
    readonly [constraint]: true;
}

/** The database at that address, as `ws://127.0.0.1:8080/`: one for all who ask. The options of the first one count. */
export function getDatabase(url: string, options?: DatabaseOptions): Database;
export function ref(db: Database, path?: string): DatabaseReference;
export function child(of: Query, path: string): DatabaseReference;
export function query(of: Query, ...parts: QueryConstraint[]): Query;
export function orderByKey(): QueryConstraint;
export function orderByValue(): QueryConstraint;
export function orderByChild(path: string): QueryConstraint;
type Leaf = null | boolean | number | string;
export function startAt(value?: Leaf, key?: string | null): QueryConstraint;
export function startAfter(value?: Leaf, key?: string | null): QueryConstraint;
export function endAt(value?: Leaf, key?: string | null): QueryConstraint;
export function endBefore(value?: Leaf, key?: string | null): QueryConstraint;
export function equalTo(value?: Leaf, key?: string | null): QueryConstraint;
export function limitToFirst(n: number): QueryConstraint;
export function limitToLast(n: number): QueryConstraint;

type Failed = (why: DatabaseError) => unknown;
type OnValue = {
    (query: Query, call: (snapshot: DataSnapshot) => unknown, failed?: Failed, options?: ListenOptions): Unsubscribe;
    (query: Query, call: (snapshot: DataSnapshot) => unknown, options: ListenOptions): Unsubscribe;
};
type OnChild = {
    (query: Query, call: (child: DataSnapshot, previousChildName?: string | null) => unknown, failed?: Failed, options?: ListenOptions): Unsubscribe;
    (query: Query, call: (child: DataSnapshot, previousChildName?: string | null) => unknown, options: ListenOptions): Unsubscribe;
};
export const onValue: OnValue;
export const onChildAdded: OnChild;
export const onChildChanged: OnChild;
export const onChildMoved: OnChild;
export const onChildRemoved: OnChild;
/** Ends the listeners of a query: all of them, those of an event, or those of a call. */
export function off(query: Query, event?: EventType, call?: (...told: any[]) => unknown): void;
/** What a listener is told first. */
export function get(query: Query): Promise<DataSnapshot>;

/** Each shows at once. The promise settles with the server's answer, perhaps behind a new connection. */
export function set(ref: DatabaseReference, value: Value): Promise<void>;
export function update(ref: DatabaseReference, values: { [path: string]: Value }): Promise<void>;
export function remove(ref: DatabaseReference): Promise<void>;
/** A child with a new key, which is above those made here before; with a value it is written, and the promise is that of the write. */
export function push(parent: DatabaseReference, value?: Value): ThenableReference;
export function onDisconnect(ref: DatabaseReference): OnDisconnect;
/** Ends the connection, and makes none, until goOnline. */
export function goOffline(db: Database): void;
export function goOnline(db: Database): void;
