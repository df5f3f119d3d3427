/**
 * From a TypeScript file to running JavaScript, by way of the program `oxt`.
 */

/** A node of the grammar in docs/GRAMMAR.md. Fields that stand at their default are left out. */
export interface Node {
  type: string;
  start?: number;
  end?: number;
  [field: string]: unknown;
}

/** The root of a tree. */
export interface Program extends Node {
  type: "Program";
  sourceType?: "module" | "script";
  lang?: "ts" | "js" | "dts";
  hashbang?: string | null;
  directives?: Node[];
  body: Node[];
}

export interface ParseOptions {
  /** The name that errors tell, whose ending says the language. `source.ts` if not given. */
  filename?: string;
  /** `script` for `.cts` and `.cjs`, else `module`. */
  sourceType?: "module" | "script";
  /** The `typescript` package to parse with; that of the file's project, or that of the system, if not given. */
  parser?: object;
}

/** The options of the program, by its names. */
export interface OxtOptions {
  typescript?: {
    /** `React.createElement` */
    jsx_pragma?: string;
    /** `React.Fragment` */
    jsx_pragma_frag?: string;
    /** false */
    only_remove_type_imports?: boolean;
    /** true */
    allow_namespaces?: boolean;
    /** true */
    allow_declare_fields?: boolean;
    /** false */
    remove_class_fields_without_initializer?: boolean;
    /** Whether members of a `const enum` become their constants; false. */
    optimize_const_enums?: boolean;
    /** Whether members of other enums do; false. */
    optimize_enums?: boolean;
    /** false */
    rewrite_import_extensions?: boolean | "rewrite" | "remove";
  };
  decorator?: {
    /** false */
    legacy?: boolean;
    /** false */
    emit_decorator_metadata?: boolean;
    /** true */
    strict_null_checks?: boolean;
  };
  /** `preserve` */
  module?: "preserve" | "esm" | "commonjs";
  /** false */
  set_public_class_fields?: boolean;
}

export interface TransformOptions extends OxtOptions, ParseOptions {
  /** The path of the program. */
  binary?: string;
}

/** A complaint about a source that is lowered all the same. Places are null where it has none. */
export interface Diagnostic {
  code: string | null;
  message: string;
  filename: string;
  /** In UTF-16 units, as `end`. */
  start: number | null;
  end: number | null;
  /** Counts from 1, as `column`. */
  line: number | null;
  column: number | null;
}

export interface TransformResult {
  code: string;
  diagnostics: Diagnostic[];
}

/** The result of a file, or the error that it gave. */
export type FileResult = { filename: string } & (
  | { code: string; diagnostics: Diagnostic[]; error?: undefined }
  | { error: Error; code?: undefined; diagnostics?: undefined }
);

export interface RegisterOptions extends OxtOptions {
  /** The path of the program. */
  binary?: string;
  /** The folder that keeps what is lowered, or false for none. */
  cache?: string | false;
}

/** The tree of a source in TypeScript, TSX or JavaScript. Throws an `OxtSyntaxError`. */
export function parse(source: string, options?: ParseOptions): Program;

/** The JavaScript of a plain tree; JSX stays JSX. Throws an `OxtPrintError`. */
export function print(tree: Program): string;

/** Lowers a source. Rejects with an `OxtError`. */
export function transform(source: string, options?: TransformOptions): Promise<TransformResult>;

/** Lowers a source while everything else waits. Throws an `OxtError`. */
export function transformSync(source: string, options?: TransformOptions): TransformResult;

/** Lowers files, as many at a time as there are cores; the results come in the order of the files. */
export function transformFiles(files: Iterable<string>, options?: TransformOptions): AsyncGenerator<FileResult, void, undefined>;

/** Lets Node load `.ts`, `.tsx`, `.mts` and `.cts` from now on. */
export function register(options?: RegisterOptions): void;

/** A fault; its message is one line, and names the place where it has one. */
export class OxtError extends Error {
  /** Begins with `ERR_OXT`. */
  code: string;
  /** What is wrong, without the place. */
  what: string;
  filename?: string;
  line?: number;
  column?: number;
  /** In UTF-16 units. */
  offset?: number;
}

/** The source is wrong, or holds what a tree has no place for. */
export class OxtSyntaxError extends OxtError {}

/** A tree cannot be printed. */
export class OxtPrintError extends OxtError {
  node?: Node;
}

/** The program refused the tree. */
export class OxtRefusal extends OxtError {
  /** The line that the program wrote. */
  reason: string;
  status: number;
}

/** The program or the parser is not there, or failed. */
export class OxtProgramError extends OxtError {}

/** There is no such option or flag. */
export class OxtOptionError extends OxtError {}
