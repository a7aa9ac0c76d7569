// The shapes that the modules of the page pass to each other. Nothing here is run: `tsc` reads it (tools/style).

/** The word of a thing: its kind, a colon, its name in the game. */
type Id = string;
/** The name of a row in its table. */
type Label = string;
/** The number of a line of the script, from 1. */
type LineNumber = number;
type Frac = import('./exact.js').Frac;
/** A number that is null where it is past the limits of fractions. */
type Figure = Frac | null;

// ---- Numbers that are typed (numbers.js) ----

/** What a field takes: units a time, watts, belts, a number without a unit, or a whole one. */
type Sort = 'rate' | 'power' | 'belts' | 'number' | 'whole';

interface Bounds {
  least?: number;
  most?: number;
}

/** What was understood: a number, a second or in watts or belts as `unit` says; null where nothing was. */
interface Heard {
  x: Figure;
  unit: Sort | '';
  /** What is shown of it, or why there is none. */
  said: string;
}

// ---- The game, as its catalog has it (docs/CATALOG.md) ----

/** What a recipe takes or gives: texts of numbers. */
interface Part {
  good: Id;
  amount: string;
  /** The fluids of other temperatures that may stand for it. */
  fits?: Id[];
  low?: string;
  high?: string;
  probability?: string;
}

interface ModuleEffects {
  [effect: string]: any;
  /** The recipes that it is allowed on alone, and those that it isn't allowed on. */
  only?: Id[];
  not?: Id[];
}

/** A thing of the game, with what `derive` and `rank` put in. */
interface Thing {
  id?: Id;
  rank?: number | null;
  kind?: string;
  order?: string[];
  hidden?: boolean;
  in?: Part[];
  out?: Part[];
  by?: Id[];
  time?: string;
  count?: string;
  enabled?: boolean;
  hand?: boolean;
  unlocked?: Id[];
  unlocks?: Id[];
  needs?: Id[];
  items?: Id[];
  fuels?: Id[];
  modules?: Id[];
  inputs?: Id[];
  variants?: Id[];
  base?: Id;
  temperature?: string;
  places?: Id;
  burnt?: Id;
  fuel?: { value: string };
  module?: ModuleEffects;
  slots?: number;
  speed?: string;
  energy?: string;
  usage?: string;
  drain?: string;
  power?: string;
  emissions?: string;
  stack?: string;
  belt?: string;
  /** What makes it, what uses it, what a machine does, and the technologies behind one. */
  made?: Id[];
  used?: Id[];
  does?: Id[];
  after?: Id[];
}

/** A beacon that may stand round a machine, with the modules that may be in it. */
interface AbleBeacon {
  id: Id;
  slots: number;
  modules: Id[];
}

// ---- A script ----

/** Modules of a kind, and how many. */
type Modules = [Id, number][];

interface Beacon {
  by: Id;
  count: number;
  share: number;
  modules: Modules;
}

interface Row {
  label: Label;
  does: Id;
  by: Id;
  fuel: Id | null;
  modules: Modules;
  beacons: Beacon[];
  /** The fluids whose temperature is chosen. */
  at: Id[];
  line?: LineNumber;
  price?: string;
  priceLine?: LineNumber;
}

/** A value of a line, as a text, and the line that says so. */
interface Said {
  value: string;
  line: LineNumber;
}

interface Table {
  name: string;
  line: LineNumber;
  /** The last line that speaks of it, and all of them. */
  last: LineNumber;
  mine: LineNumber[];
  rows: Row[];
  labels: Map<Label, Row>;
  want: Map<Id, Said>;
  import: Map<Id, Said>;
  surplus: Map<Id, Said>;
  power: { on: boolean; line: LineNumber } | null;
}

/** A list of goods of a table. */
type GoodsOf = 'want' | 'import' | 'surplus';

/** An edit of the game: its words, and its line. */
interface GameEdit {
  words: string[];
  line: LineNumber;
}

/** The lines in force, and whether a batch is open behind them. */
interface Force {
  lines: LineNumber[];
  open: boolean;
}

/** What a script comes to. */
interface Model {
  /** The words of each line. */
  commands: string[][];
  open: boolean;
  /** Whether a line takes others back, or does them again. */
  hasUndo: boolean;
  tables: Map<string, Table>;
  milestones: { id: Id; line: LineNumber }[];
  grants: Map<Id, LineNumber>;
  forbids: Map<Id, LineNumber>;
  edits: GameEdit[];
}

/** Changes of single lines: `put` has texts by the number of a line (null drops it), `add` stands behind a line or the last. */
interface Changes {
  put?: { [line: number]: string | null };
  behind?: LineNumber | null;
  add?: string[];
}

// ---- What the programs answer ----

/** The words of each line of a reply. */
type Reply = string[][];

/** Figures by their names, and the words that they were read of. */
interface Figures {
  [name: string]: any;
  said: string;
}

/** What a row takes and gives, by good. */
interface RowFlows {
  takes: Map<Id, Figure>;
  gives: Map<Id, Figure>;
  said: string;
}

interface Plan {
  kind: string;
  /** The words of the first line of the reply. */
  words: string[];
  rows: Map<Label, Figures>;
  imports: Map<Id, Figure>;
  surpluses: Map<Id, Figure>;
  prices: Map<Id, Figure>;
  flows: Map<Label, RowFlows>;
  wanted: Map<Id, Figure>;
  build: { label: Label; machine: Id; count: Figure }[];
  cost?: Frac;
  total?: Figures;
  /** The further lines of a refusal. */
  trail?: Reply;
}

/** The effects of a row, as texts, and those that stand at their floor. */
interface Effects {
  [effect: string]: string;
  floors: string;
}

/** A script of the server's folder. */
interface ScriptFile {
  file: string;
  script: string;
  version: string;
  files: string[];
}

/** What a call of the server answers (workbench/bench.py). */
type Answer = any;

/** What would mend something: the thing that it is about, its name, and what a click does. */
interface Cure {
  id: Id | null;
  text: string;
  act: () => any;
}

/** Why something is refused, and what would mend it. */
interface Cures {
  why: string;
  cures: Cure[];
  line?: LineNumber;
}

// What browsers have and this version's library doesn't name.
interface Array<T> {
  findLastIndex(test: (value: T, index: number) => any): number;
}
