// A second count over a journal's lines, for the test alone. It shares no code with view/src/model.js, and no idea where another
// will do: it goes by the lines' words, finds what covers a file by its directories, and asks the rule of `pending` anew for every
// state behind every entry.
'use strict';

// The spans of `pending`, and behind how many entries each state is pending, are found by brute force; for a long journal, where
// they are known otherwise, they can be given.
function plainCount(text, known) {
  const lines = text.split('\n').filter((line) => / -> /.test(line)).map((line) => {
    const [event, answer] = line.replace(/^[0-9]+ /, '').split(' -> ');
    return { event: event.split(' '), answer: answer.split(' ') };
  });
  const counts = { entries: lines.length, sentToClient: 0, sentToServer: 0, deliveredToClient: 0, deliveredToServer: 0, begun: 0, ended: 0, shows: 0, pendingSpans: 0, pendingEntries: 0, records: 0, durable: 0, operations: 0, requests: 0, replies: 0, saved: 0, made: 0, lookups: 0, hits: 0, lists: 0 };
  const parents = { 1: null };
  const files = {};
  const snapshots = {};
  const removals = {};
  let live = [];
  const told = [];
  const pendingBefore = {};
  const wrongShows = [];

  const wrongNames = [];
  const asked = {};           // what each request asks for, in the words of its line
  let entries = [];           // of all directories, in any order: directory, name, inode, whether it is a directory's
  const born = {};            // the greatest number that had been drawn when a request made a directory
  let drawn = 0;
  let clock = 0;
  let behind = -1;            // the place of the line

  const pathOf = (d) => d === null || d === undefined ? [] : [d, ...pathOf(parents[d])];
  // a snapshot of a directory above covers a file, but where a directory on the way that has snapshots was made behind it
  function isCovering(f, s, isRealm) {
    const way = pathOf(files[f].home);
    const place = way.indexOf(snapshots[s].directory);
    return place >= 0 && way.slice(0, place).every((d) => !isRealm(d) || !(born[d] >= s));
  }
  const hasSnapshots = (d) => Object.values(snapshots).some((one) => one.directory === d);
  const isCovered = (f, s) => isCovering(f, s, hasSnapshots);
  const seqOf = (f) => Math.max(0, ...told.filter(([, d]) => pathOf(files[f].home).includes(d)).map(([n]) => n));
  const writersOf = (f) => live.filter((r) => r.file === f && /F[a-z]*w/.test(r.bits));
  const find = (caller, name) => live.find((r) => r.name === (name[0] === 'g' ? `0/${name.slice(1)}` : `${caller}/${name}`));
  const isOpen = (snap) => snap.writers.some((w) => live.includes(w));
  const isAcked = (f, x) => x.acked || (!x.snap && files[f].flushes.some((y) => !y.snap && y.tid > x.tid && y.acked));

  function isPending(f, s) {
    const before = (n) => s === 'head' || n < s;
    const file = files[f];
    if (!file.heard) return true;
    if (s !== 'head' && seqOf(f) < s) return true;
    if (writersOf(f).some((r) => before(r.tag))) return true;
    if (s === 'head' && (file.wrote || file.mode)) return true;
    if (file.queue.some((x) => before(x.follows))) return true;
    return file.flushes.some((x) => before(x.follows) && !isAcked(f, x));
  }

  function hear(number, directory) {
    for (const f of Object.keys(files)) {
      const file = files[f];
      if (!file.heard || !pathOf(file.home).includes(directory) || file.queue.some(isOpen)) continue;
      if (writersOf(f).length || file.wrote || file.mode) file.queue.push({ follows: seqOf(f), writers: writersOf(f) });
    }
    told.push([number, directory]);
  }

  function checkShow(event, answer, place) {
    const [, f, at] = event;
    const s = at === 'head' ? 'head' : Number(at);
    const plain = !files[f] ? 'unknown'
      : s !== 'head' && !snapshots[s] ? 'nosnap'
      : s !== 'head' && snapshots[s].gone ? 'gone'
      : s !== 'head' && !isCovered(f, s) ? 'nosnap'
      : isPending(f, s) ? 'pending' : 'size';
    if (plain !== answer[0]) wrongShows.push(place + 1);
  }

  // the names that a request names, as pairs of a directory and a name
  const namesOf = (words) => words[0] === 'rename' ? [`${words[1]} ${words[2]}`, `${words[1]} ${words[3]}`] : [`${words[1]} ${words[2]}`];
  const isDirectory = (d) => d === '1' || entries.some((e) => e.of && e.ino === d);

  // the answer to a request by the entries, which then change
  function answerOf([kind, d, name, other]) {
    const here = entries.find((e) => e.in === d && e.name === name);
    if (!isDirectory(d)) return files[d] ? 'notdir' : 'missing';
    if (/mkdir|create/.test(kind) && here) return 'exists';
    if (/mkdir|create/.test(kind)) {
      const ino = String(10000 + counts.made);
      entries.push({ in: d, name, ino, of: kind === 'mkdir' });
      return `made ${ino}`;
    }
    if (!here) return 'missing';
    if (kind === 'lookup') return `found ${here.ino}`;
    if (kind === 'rename' && entries.some((e) => e.in === d && e.name === other)) return 'exists';
    if (kind === 'rename') { here.name = other; return 'moved'; }
    if (here.of && entries.some((e) => e.in === here.ino)) return 'notempty';
    entries = entries.filter((e) => e !== here);
    return 'gone';
  }

  // what a look-up answers, by the lines before it from the last one on: the first that speaks of the name decides
  function lookedUp(d, name) {
    const pair = `${d} ${name}`;
    for (let i = behind - 1; i >= 0; i--) {
      const { event, answer } = lines[i];
      if (event[0] === 'req' && namesOf(event.slice(2)).includes(pair)) return 'absent';
      if (event[0] !== 'toclient') continue;
      if (answer[0] === 'unlease' && `${answer[1]} ${answer[2]}` === pair) return 'absent';
      if (answer[0] !== 'unsafe' || !/made|found/.test(answer[2])) continue;
      const words = asked[answer[1]];
      const isLater = lines.slice(0, i).some((line) => line.event[0] === 'req' && Number(line.answer[1]) > Number(answer[1]) && namesOf(line.event.slice(2)).includes(pair));
      if (!/mkdir|create|lookup/.test(words[0]) || namesOf(words)[0] !== pair || isLater) continue;
      const until = timeAt(i) + 60;
      return clock >= until ? `expired ${until}` : `hit ${answer[3]}`;
    }
    return 'absent';
  }
  const timeAt = (place) => Math.max(0, ...lines.slice(0, place).filter((line) => line.answer[0] === 'now').map((line) => Number(line.answer[1])));

  function checkNames(event, answer) {
    const said = answer.join(' ');
    const listed = () => entries.filter((e) => e.in === event[1]).map((e) => `${e.name}=${e.ino}`);
    const plain = event[0] === 'lookup' ? lookedUp(event[2], event[3])
      : !isDirectory(event[1]) ? 'unknown'
      : event[0] === 'unlease' ? 'sent'
      : `names ${listed().sort((x, y) => Buffer.compare(Buffer.from(x.split('=')[0]), Buffer.from(y.split('=')[0]))).join(' ') || '-'}`;
    if (plain !== said) wrongNames.push(behind + 1);
  }

  // a request that the server does
  function doRequest(tid, answer) {
    const words = asked[tid];
    counts.records++;
    counts.sentToClient++;
    if (answerOf(words) !== answer.join(' ')) wrongNames.push(behind + 1);
    if (answer[0] !== 'made') return;
    counts.made++;
    if (words[0] === 'mkdir') { parents[answer[1]] = words[1]; born[answer[1]] = drawn; }
    else files[answer[1]] = newFile(words[1], false);
  }
  const newFile = (home, heard) => ({ home, heard, queue: [], flushes: [], wrote: false, mode: false });

  lines.forEach(({ event, answer }, place) => {
    behind = place;
    const line = `${event[0]} ${answer[0]}`;
    const [, a, b] = event;
    if (event[0] === 'show') { counts.shows++; checkShow(event, answer, place); }
    if (line === 'dir made') { parents[a] = b; entries.push({ in: b, name: `d${a}`, ino: a, of: true }); }
    if (line === 'file made') { files[a] = newFile(b, true); entries.push({ in: b, name: `f${a}`, ino: a, of: false }); }
    if (line === 'clock now') clock = Number(a);
    if (event[0] === 'req') { counts.requests++; counts.sentToServer++; asked[answer[1]] = event.slice(2); }
    if (line === 'tomds req') doRequest(answer[1], answer.slice(2));
    if (line === 'toclient unsafe') { counts.replies++; if (files[answer[3]] && asked[answer[1]][0] === 'create') files[answer[3]].heard = true; }
    if (line === 'toclient safe') counts.saved++;
    if (line === 'unlease sent') counts.sentToClient++;
    if (/^(lookup|names|unlease)$/.test(event[0])) checkNames(event, answer);
    if (event[0] === 'lookup') counts.lookups++;
    if (line === 'lookup hit') counts.hits++;
    if (event[0] === 'names') counts.lists++;
    if (line === 'snap snap') drawn = Number(answer[1]);
    if (line === 'rmsnap removed') drawn = Number(answer[2]);
    if (line === 'grant sent' || line === 'revoke sent') counts.sentToClient++;
    if (line === 'check ack') counts.sentToServer++;
    if (event[0] === 'toclient' && answer[0] !== 'idle') counts.deliveredToClient++;
    if (event[0] === 'tomds' && answer[0] !== 'idle') counts.deliveredToServer++;
    if (line === 'begin ref') { counts.begun++; live.push({ name: `${a}/${answer[1]}`, file: b, bits: event[3], tag: seqOf(b) }); }
    if (line === 'end ended') { counts.ended++; live = live.filter((r) => r.name !== `${a}/${b}`); }
    if (line === 'write wrote') {
      files[find(a, b).file].wrote = true;
      const from = Number(event[3]);
      counts.operations += new Set(Array.from({ length: event[4].length / 2 }, (x, i) => Math.floor((from + i) / 65536))).size;
    }
    if (line === 'chmod done') files[find(a, b).file].mode = true;
    if (line === 'flush flush') {
      counts.sentToServer++;
      Object.assign(files[a], { wrote: false, mode: false });
      files[a].flushes.push({ tid: Number(answer[1]), follows: seqOf(a), snap: false, acked: false });
    }
    if (line === 'flushsnaps flushsnap') {
      counts.sentToServer++;
      files[a].queue.shift();
      files[a].flushes.push({ tid: Number(answer[1]), follows: Number(answer[2]), snap: true, acked: false });
    }
    if (line === 'tomds flushed' || line === 'snap snap' || line === 'rmsnap removed') counts.records++;
    if (line === 'snap snap') snapshots[answer[1]] = { directory: a, gone: false };
    if (line === 'rmsnap removed') { snapshots[a].gone = true; removals[answer[2]] = Number(a); }
    if (line === 'commit commit') { counts.sentToClient += Number(answer[1]); counts.durable += Number(answer[1]); }
    if (line === 'toclient snap') hear(Number(answer[1]), answer[2]);
    if (line === 'toclient flushack') files[answer[1]].flushes.find((x) => x.tid === Number(answer[2])).acked = true;
    if (!known) countSpans();
  });

  function countSpans() {
    for (const f of Object.keys(files)) {
      const states = Object.keys(snapshots).filter((s) => !snapshots[s].gone && isCovered(f, s));
      for (const s of ['head', ...states.map(Number)]) {
        const pending = isPending(f, s);
        if (pending) counts.pendingEntries++;
        if (pending && !pendingBefore[`${f}@${s}`]) counts.pendingSpans++;
        pendingBefore[`${f}@${s}`] = pending;
      }
    }
  }
  Object.assign(counts, known);

  // each file's context as the client knows it at the end: the greatest number that it was told, and the snapshots
  function contextOf(f) {
    const heard = told.filter(([, d]) => pathOf(files[f].home).includes(d)).map(([n]) => n);
    const isTold = (d) => told.some(([n, e]) => e === d && (snapshots[n] || removals[n]));
    const snaps = heard.filter((n) => snapshots[n] && !heard.some((m) => removals[m] === n) && isCovering(f, n, isTold)).reverse();
    return `${seqOf(f)} {${snaps.join(', ')}}`;
  }
  const contexts = known ? {} : Object.fromEntries(Object.keys(files).map((f) => [f, contextOf(f)]));
  return { counts, wrongShows, wrongNames, contexts };
}

module.exports = { plainCount };
