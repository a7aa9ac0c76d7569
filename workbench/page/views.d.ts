// The shapes of the page's state and of what is seen. Nothing here is run: `tsc` reads it (tools/style).

// ---- The state of the page ----

/** All that the page knows (state.js). */
interface State {
  /** The script: its name, its text as it is now and as it was saved, and the version that was saved. */
  file: string;
  script: string;
  saved: string;
  version: string;
  /** The scripts of the folder, the name of the dump, and what tells it from another. */
  files: string[];
  dump: string;
  stamp: string;
  /** The texts before this one, and those that were gone back from. */
  past: string[];
  future: string[];
  model: Model;
  replies: Map<LineNumber, string>;
  /** Of each line that is refused the words of the reply. */
  refused: Map<LineNumber, string[]>;
  /** What was answered of each table, and what that hangs on. */
  plans: Map<string, { of: string; plan: Plan | null }>;
  rates: Map<Label, Effects | null>;
  /** The answers to questions; null for those that are on their way. */
  asked: Map<string, Reply | null>;
  total: { reached: number; nodes: number } | null;
  /** The lines that the ranks and the catalog were read for. */
  ranksOf: string | null;
  catalogOf: string | null;
  busy: boolean;
  /** How many answers are waited for beside those of the script. */
  asking: number;
  /** The text that another tab or editor saved first. */
  conflict: { theirs: string; version: string } | null;
  fault: string;
  /** Whether the page stands alone: '' is no, `gone` without a server, `other` with another's. */
  alone: '' | 'gone' | 'other';
  /** When the program answered last (milliseconds of the clock), and how long after that it was shown. */
  times: { answer: number; shown: number };
  route: string;
  side: string | null;
  card: Id | null;
  /** The cards that were left for others. */
  cards: Id[];
}

/** The game of the state (game.js). */
interface Game {
  at: Map<Id, Thing>;
  ids: Id[];
  belts: Thing[];
  packs: Id[];
  beacons: Thing[];
  isGame: boolean;
  /** Counts the readings of ranks. */
  stamp: number;
  get: (id: Id) => Thing;
  rank: (ranks: Map<Id, number>) => void;
}

/** How things are shown (look.js): names and pictures by kind, seconds of the unit of time, belt, and width in pixels. */
interface Look {
  names: Map<string, Map<string, string>>;
  pictures: Map<string, Set<string>>;
  per: number;
  belt: Id | null;
  room: number;
}

/** A wish as its form has it (wishing.js), and what was said of it last. */
interface Wish {
  [part: string]: any;
  good: Id | null;
  amount: string;
  inBelts: boolean;
  by: Id[];
  module: Id | null;
  /** The module where the first isn't allowed. */
  other: Id | null;
  rows: string;
  prices: { [good: Id]: string };
  fuel: Id | null;
  dig: boolean;
  power: boolean;
  imports: Id[];
  beacon: { [part: string]: any; by: Id; count: any; share: any; module: Id } | null;
  cheapest: string;
  without: Id[];
  only: Id[];
  said: string;
  words: Id[];
}

// ---- What is seen ----

/** A node of a view, as `h` makes it, or a part that `memo` makes when it is needed. */
interface View {
  name?: string;
  classes?: string;
  props?: Props;
  key?: any;
  children?: any[];
  text?: string;
  memo?: boolean;
  stamp?: any;
  make?: () => View;
  made?: View;
  el?: any;
}

/** Properties, attributes and handlers of an element by their names. */
interface Props {
  [name: string]: any;
  [handler: `on${string}`]: ((e: UiEvent) => any) | null;
}

/** A view, a text, a number, or nothing, also in lists. */
type Child = any;

/** An event whose targets are elements. */
type UiEvent = any;

/** An entry of a list to pick from. */
interface Option {
  id: Id | null;
  text?: string;
  note?: string;
}

interface Picking {
  options: (Id | Option)[];
  current?: Id | null;
  /** The name of a first entry that picks null. */
  none?: string;
  hint?: string;
  done: (id: Id | null) => any;
}

interface Editing {
  label: string;
  key: string;
  wide?: boolean;
  sort?: Sort;
  done: (x: Frac) => any;
}

/** A box under a button, how it closes, and how it is put in its place. */
interface Box {
  box: HTMLElement;
  leave: () => void;
  place: () => void;
}

// ---- The chart ----

/** A flow between a card and a hub. */
interface ChartFlow {
  card: Card;
  hub: Hub;
  amount: Figure;
  /** Whether the card gives it. */
  gives: boolean;
}

/** A box of the chart: a row at work, an import, a surplus or a want. */
interface Card {
  [figure: string]: any;
  kind: 'row' | 'import' | 'surplus' | 'want';
  row?: Pick<Row, 'label' | 'does' | 'by'>;
  good?: Id;
  in?: ChartFlow[];
  out?: ChartFlow[];
  x?: number;
  y?: number;
  layer?: number;
  name?: string;
}

/** A good between cards. */
interface Hub {
  id: Id;
  from: ChartFlow[];
  to: ChartFlow[];
  x?: number;
  y?: number;
  name?: string;
}

interface Graph {
  cards: Card[];
  hubs: Hub[];
}
