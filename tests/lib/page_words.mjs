// Tries what the page makes of a user's choices: node page_words.mjs WEB. What is wanted is written by hand.
import { readFileSync } from 'node:fs';
import { deepStrictEqual } from 'node:assert';

const names = ['expressionOf', 'wordOf', 'freeName', 'callFor', 'refusalOf', 'moved', 'sizeText', 'factsOf'];
const it = new Function(`${readFileSync(`${process.argv[2]}/words.js`, 'utf8')}\nreturn { ${names.join(', ')} };`)();
const info = { triangles: 1, 'loose edges': 3, from: [0, 0, -1], to: [1.5, 2, 0.1] };
const choice = { expression: 'm1&!m2', step: '0.05', format: 'glb' };

const rows = [
  [it.expressionOf('union', 3), 'm1|m2|m3'],
  [it.expressionOf('difference', 2), 'm1&!m2'],
  [it.expressionOf('intersection', 1), 'm1'],
  [it.expressionOf('union', 0), ''],
  [it.wordOf('part.stl'), 'part.stl'],
  [it.wordOf('-'), './-'],
  [it.wordOf('--json'), './--json'],
  [it.freeName('stl', []), 'result.stl'],
  [it.freeName('stl', ['result.stl', 'result-2.stl']), 'result-3.stl'],
  [it.callFor(choice, [['a.stl', 1], ['-b.obj', 2]]), {
    words: ['bool', '--expr=m1&!m2', '--step=0.05', '-o', 'result.glb', '--view', 'result.html', 'a.stl', './-b.obj'],
    files: [['a.stl', 1], ['./-b.obj', 2]], result: 'result.glb', view: 'result.html',
  }],
  [it.callFor({ ...choice, format: 'ply' }, [['result.ply', 1]]), {
    words: ['bool', '--expr=m1&!m2', '--step=0.05', '-o', 'result-2.ply', 'result.ply'], files: [['result.ply', 1]], result: 'result-2.ply', view: 'result.html',
  }],
  [it.refusalOf({ name: 'a.stl', size: 2 ** 28 }, ['b.stl']), ''],
  [it.refusalOf({ name: 'a.stl', size: 2 ** 28 + 1 }, []), 'a.stl: more than 268435456 bytes; simplify the mesh'],
  [it.refusalOf({ name: 'a.stl', size: 1 }, ['a.stl']), 'a.stl: there is a file of this name already; rename one of the two'],
  [it.moved(['a', 'b', 'c'], 0, 2), ['b', 'c', 'a']],
  [it.moved(['a', 'b', 'c'], 2, 0), ['c', 'a', 'b']],
  [it.moved(['a', 'b', 'c'], 1, 1), ['a', 'b', 'c']],
  [it.sizeText(1), '1 byte'],
  [it.sizeText(999), '999 bytes'],
  [it.sizeText(13684), '13.7 kB'],
  [it.sizeText(999999), '1,000 kB'],
  [it.sizeText(3369384), '3.37 MB'],
  [it.factsOf(info), ['1 triangle', '1.5 × 2 × 1.1', '3 loose edges']],
  [it.factsOf({ ...info, 'loose edges': 0, from: null }), ['1 triangle']],
];
rows.forEach(([got, wanted]) => deepStrictEqual(got, wanted));
console.log(`${rows.length} rows`);
