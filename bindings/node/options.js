'use strict';
/** Options, read strictly. */

/** Whether all members of an object are its own, those aside that every object has. */
function isPlain(object) {
  const kind = Object.getPrototypeOf(object);
  return Array.isArray(object) || kind === null || Object.getPrototypeOf(kind) === null;
}

/**
 * The members of an options object by these names, in an object without a prototype. They are its own alone: what a careless merge has put into
 * `Object.prototype` decides nothing. Throws TypeError for a name that isn't among these, and for what is no plain object, whose members may stand
 * elsewhere.
 */
function own(options, names, what) {
  if (typeof options !== 'object' || options === null || Array.isArray(options) || !isPlain(options)) {
    throw new TypeError(`the options of ${what} are a plain object`);
  }
  const members = Object.create(null);
  for (const name of Reflect.ownKeys(options)) {
    if (!names.includes(name)) throw new TypeError(`${what} takes ${names.join(', ')}, and not ${String(name)}`);
    members[name] = options[name];
  }
  return members;
}

/** Refuses a member of another kind than it has to be; one that is undefined is as without it. */
function ofKind(kind, members, ...names) {
  for (const name of names) {
    if (members[name] !== undefined && typeof members[name] !== kind) throw new TypeError(`${name} has to be a ${kind}`);
  }
}

module.exports = { isPlain, ofKind, own };
