// What is given to the browser's downloads: the page of all plans, and the certificate of one.
import { run, working } from './answers.js';
import { call, download } from './calls.js';
import { plain } from './look.js';
import { tellWhy } from './refusal.js';
import { line, linesOf, solveWords } from './script.js';
import { S } from './state.js';
import { toast } from './toast.js';

/** @type {(name: string) => string} */
const fileName = name => plain(name, 40).replace(/[^\p{L}\p{N}_-]+/gu, '-').replace(/^-+|-+$/g, '') || 'table';
/**
 * The script, and lines behind it that no open batch holds.
 *
 * @type {(lines: string[]) => string}
 */
const scriptWith = lines => [...linesOf(S.script), ...(S.model.open ? ['cancel'] : []), ...lines].join('\n') + '\n';

/**
 * One file of HTML with all plans of the script.
 *
 * @type {() => Promise<void>}
 */
export const savePage = () => working(async () => {
  await run();
  try {
    const out = await call('page', {
      script: scriptWith([...S.model.tables.keys()].map(name => line('solve', ...solveWords(S.model, name)))),
    });
    if (!out.text) return tellWhy(`no page: ${out.said}`);
    download(`${fileName(S.file.replace(/\.txt$/, ''))}.html`, out.text, 'text/html');
    return toast('The page is in your downloads.');
  } catch (fault) {
    return tellWhy(`no page: ${fault.message}`);
  }
});

/**
 * What proves the plan of a table to whoever doubts it: its certificate and its script, with the word of the checker.
 *
 * @type {(table: Table) => Promise<void>}
 */
export const saveCertificate = table => working(async () => {
  try {
    const out = await call('certificate', {
      script: scriptWith([line('solve', ...solveWords(S.model, table.name))]),
      file: S.file,
    });
    if (out.status > 1 || !out.text.startsWith('{')) {
      return tellWhy(`no certificate: ${out.said || out.text}`);
    }
    download(`${fileName(table.name)}.certificate.json`, out.text, 'application/json');
    download(`${fileName(table.name)}.script.txt`, out.script, 'text/plain');
    return toast(`The certificate and its script are in your downloads. The checker says: ${out.verdict}.`);
  } catch (fault) {
    return tellWhy(`no certificate: ${fault.message}`);
  }
});
