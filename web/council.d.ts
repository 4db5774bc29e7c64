/** A whole number, such as a weight from 0 to 10^12. */
export type Whole = number | bigint;

/** What a report has, and when to stop: after `signal` is aborted, the call throws its reason. */
export interface Options {
  /** Add swings and the indices that rest on them. */
  swings?: boolean;
  /** Only these; no minimal winning coalition is looked for. */
  only_swings?: boolean;
  /** List the minimal winning coalitions, at most 4,000,000. */
  coalitions?: boolean;
  /** Refuse a game with more minimal winning coalitions, 1 to 4,000,000; without it any number is counted. */
  most?: number;
  /** How many coalitions of each size there are, and with which members. */
  sizes?: boolean;
  /** Lines [q; w1, .., wn] in the text. */
  notation?: boolean;
  signal?: AbortSignal;
}

export interface Game {
  /** A quota, or one for each of up to four rules. */
  quotas: Whole | Whole[];
  /** The members' weights, or a list of them for each rule. */
  weights: Whole[] | Whole[][];
  /** The rules of each way to win, from 1; without it a coalition must meet all rules. */
  ways?: number[][];
  /** Without it members are named 1, 2, .. */
  names?: string[];
  title?: string;
}

/** A fraction in lowest terms. String(it) is `top/bottom`, Number(it) the nearest double. */
export class Fraction {
  constructor(top: Whole | string, bottom: Whole | string);
  readonly top: bigint;
  readonly bottom: bigint;
  /** Decimals, rounded half up. */
  toFixed(places: number): string;
}

type Index = "deegan_packel" | "public_good" | "banzhaf" | "penrose" | "shapley_shubik" | "power_to_prevent" | "power_to_initiate";
export type Member = {name: string; weights: number[]; coalitions?: number; swings?: number}
  & {[index in Index]?: number} & {[exact in `${Index}_exact`]?: Fraction};

export interface Report {
  title: string;
  quotas: number[];
  totals: number[];
  ways: number[][];
  /** How many minimal winning coalitions and winning coalitions there are. */
  minimal?: number;
  winning?: number;
  power_to_act?: number;
  power_to_act_exact?: Fraction;
  members: Member[];
  coalitions?: {size: number; weights: number[]; members: string[]}[];
  /** A size, how many coalitions have it, and for each member how many of these contain it. */
  sizes?: number[][];
  /** The text that the program prints. */
  text: string;
}

/** A refused game: the status of the program, its words for the fault, and what would be right. */
export class Refused extends Error {
  readonly status: number;
  readonly fault: string;
  /** The member and the rule of the fault, from 1, if it is of one. */
  readonly member: number | null;
  readonly rule: number | null;
  readonly explanation: string;
}

/** Computes a game in a worker. A refused game throws Refused. */
export function report(game: Game & Options): Promise<Report>;
/** The report of a game file, TOML or a bracket text. */
export function reportOf(game: string | Uint8Array, options?: Options): Promise<Report>;
/** The report in a text that the program printed. */
export function readReport(text: string): Report;
/** The text of a game file; it checks nothing. */
export function writeGame(game: {title?: string; quotas: Whole[]; weights: Whole[][]; ways?: number[][]; names: string[]; comments?: string[]}): string;
/** The version of the library. */
export function version(): Promise<string>;
