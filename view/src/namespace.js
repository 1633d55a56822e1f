// What requests ask for and are answered, the names in directories, and the leases on them, by the definitions (`Namespace`, `Leases`
// of crates/cs_laws/specs). All of it is values: a map of entries or leases is taken and never changed in place.
(function (root) {
  'use strict';

  const LEASE = 60;
  const FIRST_MADE = 10000;

  // the forms of OP; those that make or look up ask for an inode, and so for a lease
  const OPERATIONS = {
    mkdir: { form: 'D NAME', asks: true, words: (op) => `a new directory ${op.name} in directory ${op.directory}` },
    create: { form: 'D NAME', asks: true, words: (op) => `a new file ${op.name} in directory ${op.directory}` },
    unlink: { form: 'D NAME', asks: false, words: (op) => `that the entry ${op.name} of directory ${op.directory} is taken out` },
    rename: { form: 'D NAME NEW', asks: false, words: (op) => `that the entry ${op.name} of directory ${op.directory} gets the name ${op.newName}` },
    lookup: { form: 'D NAME', asks: true, words: (op) => `the inode of the entry ${op.name} of directory ${op.directory}` },
  };

  // the forms of ANSWER, and why it came
  const ANSWERS = {
    missing: (op) => `Directory ${op.directory} does not stand, or has no entry ${op.name}.`,
    notdir: (op) => `${op.directory} is a file.`,
    exists: (op) => `Directory ${op.directory} has an entry ${op.newName || op.name} already.`,
    'made I': (op, answer) => `The name is free. The new ${op.kind === 'mkdir' ? 'directory' : 'file'} is inode ${answer.ino}.`,
    notempty: (op) => `The directory under the name ${op.name} has entries, and stays.`,
    gone: (op) => `Directory ${op.directory} has no entry ${op.name} from now on.`,
    moved: (op) => `The entry has the name ${op.newName} from now on.`,
    'found I': (op, answer) => `The entry has the inode ${answer.ino}.`,
  };

  const answerText = (answer) => answer.ino === undefined ? answer.word : `${answer.word} ${answer.ino}`;
  const keyOf = (directory, name) => `${directory}/${name}`;
  // the entries that an operation names
  const keysNamed = (op) => op.kind === 'rename' ? [keyOf(op.directory, op.name), keyOf(op.directory, op.newName)] : [keyOf(op.directory, op.name)];

  const some = (map, test) => { for (const x of map.values()) if (test(x)) return true; return false; };
  const hasDirectory = (names, d) => d === 1 || some(names, (e) => e.isDirectory && e.ino === d);
  const isEmpty = (names, d) => !some(names, (e) => e.directory === d);

  // the answer to an operation (answer_on); isFile tells whether a number is a file's, and made is how many inodes requests made
  function answerOn(names, op, isFile, made) {
    if (!hasDirectory(names, op.directory)) return { word: isFile(op.directory) ? 'notdir' : 'missing' };
    const entry = names.get(keyOf(op.directory, op.name));
    if (op.kind === 'mkdir' || op.kind === 'create') return entry ? { word: 'exists' } : { word: 'made', ino: FIRST_MADE + made };
    if (!entry) return { word: 'missing' };
    if (op.kind === 'lookup') return { word: 'found', ino: entry.ino };
    if (op.kind === 'rename') return { word: names.has(keyOf(op.directory, op.newName)) ? 'exists' : 'moved' };
    return { word: entry.isDirectory && !isEmpty(names, entry.ino) ? 'notempty' : 'gone' };
  }

  // the names after an operation with its answer (after_answer)
  function namespaceAfter(names, op, answer) {
    const after = new Map(names);
    const key = keyOf(op.directory, op.name);
    const entry = names.get(key);
    if (answer.word === 'made') after.set(key, { directory: op.directory, name: op.name, ino: answer.ino, isDirectory: op.kind === 'mkdir' });
    if (answer.word === 'gone' || answer.word === 'moved') after.delete(key);
    if (answer.word === 'moved' && entry) after.set(keyOf(op.directory, op.newName), { ...entry, name: op.newName });
    return after;
  }

  // the names in a directory, in the order of their bytes
  function listing(names, d) {
    const items = [...names.values()].filter((e) => e.directory === d).sort((a, b) => a.name < b.name ? -1 : 1);
    return items.map((e) => `${e.name}=${e.ino}`).join(' ') || '-';
  }

  const leaseOn = (answer, now) => ({ ino: answer.ino, until: now + LEASE });

  // the answer to a look-up by a lease
  function lookedUp(lease, now) {
    if (!lease) return 'absent';
    return lease.until <= now ? `expired ${lease.until}` : `hit ${lease.ino}`;
  }

  const names = { OPERATIONS, ANSWERS, keyOf, keysNamed, answerOn, answerText, namespaceAfter, listing, hasDirectory, leaseOn, lookedUp };
  root.JournalNames = names;
  if (typeof module !== 'undefined' && module.exports) module.exports = names;
})(typeof globalThis !== 'undefined' ? globalThis : this);
