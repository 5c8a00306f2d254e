/** The page: it asks the program, and lays out what that answers. It reads no token by itself, and puts nothing from outside into the page but as text. */
const $ = (id) => document.getElementById(id);
function el(name, members = {}, ...children) {
  const it = document.createElement(name);
  for (const [key, value] of Object.entries(members)) if (value !== undefined) key === 'class' ? (it.className = value) : (it[key] = value);
  it.append(...children.flat().filter((child) => child !== undefined && child !== null));
  return it;
}
const fill = (id, ...children) => $(id).replaceChildren(...children.flat().filter(Boolean));

/** A JSON text with each number by its digits. */
class Digits { constructor(source) { this.source = source; } }
const parse = (text) => JSON.parse(text, (key, value, context) => (typeof value === 'number' && context?.source !== undefined ? new Digits(context.source) : value));
const numberOf = (it) => (it instanceof Digits ? Number(it.source) : typeof it === 'number' ? it : undefined);
function written(value, indent = '') {
  if (value instanceof Digits) return value.source;
  if (Array.isArray(value)) return value.length === 0 ? '[]' : value.every((it) => typeof it !== 'object' || it === null || it instanceof Digits) ? `[${value.map((it) => written(it)).join(', ')}]`
    : `[\n${value.map((it) => `${indent}  ${written(it, `${indent}  `)}`).join(',\n')}\n${indent}]`;
  if (typeof value !== 'object' || value === null) return shown(JSON.stringify(value));
  const names = Object.keys(value);
  return names.length === 0 ? '{}' : `{\n${names.map((name) => `${indent}  ${shown(JSON.stringify(name))}: ${written(value[name], `${indent}  `)}`).join(',\n')}\n${indent}}`;
}
/** What a browser may obey, or nobody can see, by its number. */
const shown = (text) => text.replace(/[\p{Cc}\p{Cf}\p{Zl}\p{Zp}]/gu, (it) => [...Array(it.length).keys()].map((i) => `\\u${it.charCodeAt(i).toString(16).padStart(4, '0')}`).join(''));
const plainly = (value) => (typeof value === 'string' ? shown(value) : written(value));

function span(seconds) {
  const all = Math.abs(seconds), of = (n, unit) => `${n} ${unit}${n === 1 ? '' : 's'}`;
  if (all < 120) return of(all, 'second');
  if (all < 7200) return of(Math.round(all / 60), 'minute');
  if (all < 172800) return of(Math.round(all / 3600), 'hour');
  if (all < 63072000) return of(Math.round(all / 86400), 'day');
  return of(Math.round(all / 31557600), 'year');
}
function dateOf(seconds, now) {
  if (!Number.isFinite(seconds) || Math.abs(seconds) > 253402300799) return undefined;
  const date = new Date(seconds * 1000).toISOString().replace('T', ' ').replace('.000Z', ' UTC');
  const from = Math.round(seconds - now);
  return `${date}, ${from === 0 ? 'now' : from > 0 ? `in ${span(from)}` : `${span(from)} ago`}`;
}

const first = (text) => text.split('\n').find(Boolean) ?? '';
const said = (err) => {
  for (const line of err.split('\n').filter(Boolean)) {
    try { const it = JSON.parse(line); return it.line === undefined ? it.reason : `line ${it.line}, column ${it.column}: ${it.reason}`; } catch { /* (a line in words) */ }
  }
  return '';
};
/** "ab; do this." as a sentence of its own. */
const sentence = (text) => (text === '' ? '' : text[0].toUpperCase() + text.slice(1) + (/[.!?)]$/.test(text) ? '' : '.'));

let program, keyIs = 'text', seed = '';

/** Runs the program on words, an input, and files that are texts or octets: what it prints, and its status. */
function jwt(words, { input = '', files = {} } = {}) {
  const encoder = new TextEncoder(), octets = (it) => (typeof it === 'string' ? encoder.encode(it) : it);
  const open = new Map([[0, { octets: octets(input), at: 0 }]]), written = { 1: [], 2: [] };
  const fail = (code) => { throw Object.assign(new Error(code), { code }); };
  const status = run(program, words, {
    read(fd, most) {
      const file = open.get(fd) ?? fail('EBADF'), part = file.octets.subarray(file.at, file.at + most);
      file.at += part.length;
      return part;
    },
    write: (fd, part) => ((written[fd] ?? fail('EBADF')).push(part), part.length),
    open(path) {
      if (!Object.hasOwn(files, path)) fail('ENOENT');
      open.set(open.size + 2, { octets: octets(files[path]), at: 0 });
      return open.size + 1;
    },
    close: () => undefined,
    isTerminal: () => false,
    now: Date.now,
    random: (to) => crypto.getRandomValues(to),
  });
  const text = (fd) => new TextDecoder().decode(new Uint8Array(written[fd].flatMap((part) => [...part])));
  return { status, out: text(1), err: text(2) };
}

const PRIVATE = 'This is a private key, which has no business in a web page, and isn’t needed: paste the public one.';

/** What the program advises on a policy and a key set. */
function adviceOn(policyText, set) {
  const { out } = jwt(['policy', '--json', '--policy', 'policy', ...(set === undefined ? [] : ['--keys', 'keys'])], { files: { policy: policyText, keys: set ?? '' } });
  // (of a policy that is refused the verdict says why)
  try { return JSON.parse(out).advice ?? []; } catch { return []; }
}

/** The key set of what was pasted: { set } or { wrong }, with what it was taken for. */
function keySet(text, { alg, kid } = {}) {
  // (one key that is pasted beside a token is taken for the one that the token names)
  const named = typeof kid === 'string' && kid !== '' ? ['--kid', kid] : [];
  const trimmed = text.trim();
  if (trimmed === '') return { none: true };
  if (trimmed.includes('-----BEGIN')) {
    const one = trimmed.split('-----BEGIN').length === 2 ? named : [];
    const { status, out } = jwt(['jwk', '--json', '--file', 'key.pem', ...one], { files: { 'key.pem': `${trimmed}\n` } });
    if (status === 0) return { set: out, is: 'Public keys in PEM, read as a key set', file: 'key.pem' };
    const { fault, remedy } = JSON.parse(out);
    const why = { PrivateKey: PRIVATE, Certificate: 'This is a certificate: paste its public key.', OpenSsh: 'This is a key as OpenSSH writes it.' };
    return { wrong: why[fault] ?? `The PEM text is refused: ${fault}.`, remedy };
  }
  if (/^[[{]/.test(trimmed)) {
    let set = trimmed, is = 'A key set';
    if (trimmed[0] === '[') [set, is] = [`{"keys":${trimmed}}`, 'A list of keys, read as a key set'];
    else try { if (JSON.parse(trimmed).keys === undefined && JSON.parse(trimmed).kty !== undefined) [set, is] = [`{"keys":[${trimmed}]}`, 'One key, read as a key set']; } catch { /* (the program says what is wrong) */ }
    const { status, out, err } = jwt(['keys', '--json'], { input: set });
    if (status !== 0) return { wrong: `The key set is refused: ${sentence(said(err) || JSON.parse(out).fault)}` };
    const advice = adviceOn('{"version":2,"algs":["HS256"]}', set);
    if (advice.some(({ name }) => name === 'PrivateMember')) return { wrong: `${PRIVATE} Whoever has read it can sign: make a new one where it was in use.` };
    return { set, is, keys: JSON.parse(out) };
  }
  let secret = text.replace(/\n$/, '');
  if (keyIs === 'base64') try { secret = Uint8Array.from(atob(secret.replace(/-/g, '+').replace(/_/g, '/').trim()), (it) => it.charCodeAt(0)); } catch { return { wrong: 'This is no base64 text.', secret: true }; }
  const by = /^HS(256|384|512)$/.test(alg ?? '') ? alg : 'HS256';
  const { status, out } = jwt(['jwk', '--json', '--secret', 'secret', '--alg', by], { files: { secret } });
  const size = typeof secret === 'string' ? new TextEncoder().encode(secret).length : secret.length;
  if (status === 0) {
    const { keys: [key] } = JSON.parse(out);
    delete key.kid;
    return { set: JSON.stringify({ keys: [{ ...key, kid }] }), is: `A secret of ${size} bytes, for ${by}`, secret: true };
  }
  return { wrong: `A secret for ${by} has at least ${by.slice(2) / 8} bytes (RFC 7518, section 3.2), and this has ${size}: a shorter one can be guessed, and no verifier ought to take it.`, secret: true };
}

/** A policy by what a token says of itself. */
function policyOf(header, payload) {
  const texts = (it) => (Array.isArray(it) ? it.filter((one) => typeof one === 'string') : typeof it === 'string' ? [it] : []);
  const policy = { version: 2, algs: [typeof header?.alg === 'string' && header.alg !== 'none' ? header.alg : 'RS256'] };
  if (typeof header?.typ === 'string') policy.typ = header.typ;
  if (typeof header?.kid === 'string') policy.need_kid = true;
  if (typeof payload?.iss === 'string') policy.issuers = [payload.iss];
  if (texts(payload?.aud).length > 0) policy.audiences = texts(payload.aud).slice(0, 1);
  policy.required = ['iss', 'aud', 'sub', 'exp'].filter((name) => name === 'exp' || payload?.[name] !== undefined);
  return JSON.stringify({ ...policy, max_signatures: 1, max_calls: 2 }, null, 1).replace(/\[\n\s+/g, '[').replace(/\n\s+\]/g, ']').replace(/",\n\s+"(?=[^"]*"[\],])(?![^"]*":)/g, '", "').replace(/^ /gm, '  ');
}

/** Whether a policy may name an algorithm: the program knows all that it verifies. */
function isVerified(alg) {
  const { out } = jwt(['policy', '--json', '--policy', 'policy'], { files: { policy: JSON.stringify({ version: 2, algs: [alg] }) } });
  return out.startsWith('{"members":');
}

/** What is odd in a token: [how bad, what, why]. These are hints, and decide nothing. */
function oddities(text, it, now, set) {
  const list = [], odd = (what, why) => list.push(['odd', what, why]), bad = (what, why) => list.push(['bad', what, why]);
  if (/^\s|\s$/.test(text)) odd('White space', 'stands before or behind the token; it isn’t part of it, and is left out here.');
  for (const { protected: header, header: other } of it.signatures) {
    const all = { ...other, ...header }, alg = all.alg;
    if (typeof alg === 'string' && alg.toLowerCase() === 'none') bad('alg: none', 'says that nobody signed it. No policy can allow that.');
    else if (typeof alg === 'string' && !isVerified(alg)) odd(`alg: ${shown(alg)}`, 'is none that is verified here.');
    for (const name of ['jku', 'x5u']) if (all[name] !== undefined) bad(name, 'tells the reader where to fetch a key. Whoever forges a token names a place of their own.');
    for (const name of ['jwk', 'x5c']) if (all[name] !== undefined) odd(name, 'brings a key along. It proves nothing: anybody can bring their own.');
    if (all.crit !== undefined) odd('crit', 'names what a reader has to understand, or else to refuse.');
    if (all.b64 !== undefined) odd('b64', 'says that the payload may be unencoded (RFC 7797).');
    if (all.typ === undefined) odd('No typ', 'so nothing but its claims tells it from a token of another kind under the same key (RFC 8725, section 3.11).');
    if (other !== undefined) odd('An unprotected header', 'isn’t signed: anybody can change it.');
    if (/^HS/.test(alg ?? '') && set !== undefined && /"kty":\s*"(RSA|EC|OKP)"/.test(set)) bad(`${alg}, and a public key`, 'A public key is known to everyone: taken for a secret, anybody could sign by it. Here it never is.');
  }
  if (it.signatures.length > 1) odd(`${it.signatures.length} signatures`, 'Which of them counts is the policy’s to say.');
  const claims = it.payload;
  if (it.claims_refused !== undefined) bad('Claims', `that no policy takes: ${it.claims_refused.fault}${it.claims_refused.claim === undefined ? '' : ` (${it.claims_refused.claim})`}.`);
  if (claims === null || typeof claims !== 'object' || Array.isArray(claims)) { bad('No claims', 'The payload is no JSON object.'); return list; }
  const [exp, iat, nbf] = ['exp', 'iat', 'nbf'].map((name) => numberOf(claims[name]));
  if (claims.exp === undefined) bad('No exp', 'It never expires by itself.');
  else if (exp !== undefined && exp <= now) bad('Expired', now - exp < 1 ? 'just now.' : `${span(Math.round(now - exp))} ago.`);
  if (exp > 32503680000) odd('exp', 'is so far off that it may be in milliseconds: dates count seconds.');
  else if (exp !== undefined && iat !== undefined && exp - iat > 86400) odd('A long life', `of ${span(exp - iat)}. Whoever steals it has it for as long.`);
  if (iat > now + 60) odd('Issued in the future', `in ${span(iat - now)}: a clock is wrong, or it was made up.`);
  if (nbf > now) odd('Not yet', `it counts in ${span(nbf - now)}.`);
  if (claims.iss === undefined) odd('No iss', 'It doesn’t say who issued it.');
  if (claims.aud === undefined) odd('No aud', 'It doesn’t say for whom it is: whoever gets it can show it elsewhere.');
  if (claims.cnf !== undefined) odd('cnf', 'binds it to a key or a certificate: alone it is worth nothing to whoever checks that.');
  return list;
}

function renderContent(it, now, verdict) {
  const stamp = verdict === 'accepted' ? el('span', { class: 'stamp good' }, 'verified') : el('span', { class: 'stamp bad' }, 'nobody vouches for it');
  const parts = [el('h2', {}, 'What stands in it', stamp)];
  const table = (object, meanings) => el('table', {}, Object.entries(object).map(([name, value]) => {
    const isDate = ['exp', 'iat', 'nbf', 'auth_time', 'updated_at'].includes(name) && numberOf(value) !== undefined;
    const means = [Object.hasOwn(meanings, name) ? meanings[name] : undefined, isDate ? dateOf(numberOf(value), now) : undefined].filter(Boolean).join(': ');
    return el('tr', {}, el('th', { class: 'k', scope: 'row' }, shown(name)), el('td', { class: 'v' }, plainly(value)), el('td', { class: 'm' }, means));
  }));
  const isObject = (value) => typeof value === 'object' && value !== null && !Array.isArray(value) && !(value instanceof Digits);
  it.signatures.forEach((signature, n) => {
    const of = it.signatures.length > 1 ? ` of signature ${n}` : '';
    parts.push(el('h3', {}, `Header${of}`), isObject(signature.protected) ? table(signature.protected, HEADERS) : el('p', { class: 'note' }, 'no JSON object'));
    if (signature.header !== undefined) parts.push(el('h3', {}, `Unprotected header${of}`), isObject(signature.header) ? table(signature.header, HEADERS) : el('p', { class: 'note' }, 'no JSON object'));
  });
  parts.push(el('h3', {}, 'Payload'), isObject(it.payload) ? table(it.payload, CLAIMS) : el('p', { class: 'note' }, it.payload === null ? 'no JSON text' : plainly(it.payload)));
  parts.push(el('p', { class: 'note' }, `${it.form === 'compact' ? 'Compact form' : it.form === 'flattened' ? 'Flattened JSON form' : 'General JSON form'}; ${it.signatures.map(({ octets }) => `a signature of ${plainly(octets)} bytes`).join(', ')}.`));
  fill('content', parts);
  $('content').hidden = false;
}

/** A text whose parts between backticks are code. */
const withCode = (text) => text.split('`').map((part, n) => (n % 2 ? el('code', {}, part) : part));

function renderVerdict(kind, title, ...lines) {
  $('verdict').className = `verdict ${kind}`;
  fill('verdict', el('h2', {}, title), lines.filter(Boolean).map((line) => (typeof line === 'string' ? el('p', {}, withCode(line)) : line)));
}

function renderAdvice(policyText, set) {
  const advice = adviceOn(policyText, set);
  fill('advice', advice.length === 0 ? [] : [el('h3', {}, 'Advice on the policy and the keys'), el('ul', { class: 'odd' }, advice.map(({ name, key, entry }) =>
    el('li', {}, el('b', {}, name), key !== undefined ? `, key ${key}: ` : entry !== undefined ? `, entry ${entry}: ` : ': ', withCode(ADVICE[name] ?? ''))))]);
}

function colour(text) {
  const parts = text.split('.');
  if (text.trimStart()[0] === '{' || parts.length < 2) return fill('coloured', text + '\n');
  const classes = ['h', 'p', 's'];
  fill('coloured', parts.flatMap((part, n) => [n === 0 ? null : el('span', { class: 'd' }, '.'), el('span', { class: classes[Math.min(n, 2)] }, part)]), '\n');
}

const quote = (text) => (/^[\w@%+=:,./-]+$/.test(text) ? text : `'${text.replace(/'/g, "'\\''")}'`);

function judge() {
  const raw = $('token').value, text = raw.trim(), policyText = $('policy').value, keyText = $('key').value;
  colour(raw);
  const nowGiven = $('when').value === 'then' ? $('moment').value.trim() : String(Math.floor(Date.now() / 1000));
  const now = /^\d+$/.test(nowGiven) ? Number(nowGiven) : Date.parse(nowGiven) / 1000;
  for (const id of ['oddities', 'content', 'trace']) $(id).hidden = true;
  let read, header, shownToken;
  if (text !== '') {
    shownToken = jwt(['show', '--json', '--limit', '1048576', 'token'], { files: { token: text } });
    if (shownToken.status === 0) { read = parse(first(shownToken.out)).unverified; header = read.signatures[0] && { ...read.signatures[0].header, ...read.signatures[0].protected }; }
  }
  if ($('preset').value === 'token' && read !== undefined && $('policy').value === seed) {
    seed = policyOf(header, read.payload);
    $('policy').value = seed;
  }
  const keys = keySet(keyText, header);
  fill('keysaid', keys.none ? 'Without one, the token is shown and not verified.' : keys.wrong ?? `${keys.is}.`, keys.remedy === undefined ? '' : el('pre', { class: 'command' }, keys.remedy),
    keys.secret ? el('span', { class: 'row' }, ['text', 'base64'].map((kind) => el('label', {}, el('input', { type: 'radio', name: 'keyis', checked: keyIs === kind, onchange: () => { keyIs = kind; judge(); } }), kind === 'text' ? 'it is the secret' : 'it is base64 of the secret'))) : '');
  renderAdvice($('policy').value, keys.set);
  if (text === '') return renderVerdict('calm', 'Paste a token', 'What stands in it is shown here, and whether it is valid.');
  if (read === undefined) {
    let fault; try { fault = JSON.parse(first(shownToken.out)).fault; } catch { fault = 'Read'; }
    return renderVerdict('bad', `No signed token: ${fault}`, sentence(said(shownToken.err)));
  }
  let verdict = 'not verified', result, err = '';
  const asks = ['verify', '--json', '--public-keys', '--now', nowGiven, '--policy', 'policy.json', '--keys', 'keys.json', '--token', 'token'];
  if (keys.set !== undefined) {
    const ran = jwt(asks, { files: { 'policy.json': $('policy').value, 'keys.json': keys.set, token: text } });
    err = said(ran.err);
    try { result = JSON.parse(first(ran.out)); verdict = result.verdict; } catch { result = { verdict: 'failed', fault: first(ran.out) }; verdict = 'failed'; }
  }
  if (keys.none) renderVerdict('calm', 'Not verified', 'Without a key nobody can say who made this token. What stands below may be made up.');
  else if (keys.wrong !== undefined) renderVerdict('calm', 'Not verified: the key can’t be used', keys.wrong);
  else if (verdict === 'accepted') {
    const key = keys.keys?.keys?.[result.key];
    renderVerdict('good', 'Accepted', `Its signature is by ${key?.kid === undefined ? 'the key that was given' : `the key ${shown(key.kid)}`}, and it is all that the policy asks for${$('when').value === 'then' ? ', at that moment' : ''}.`,
      $('preset').value === 'token' ? 'The policy was made from the token itself: write down what your service expects, before you rely on it.' : undefined);
  } else if (result.document !== undefined) {
    const which = { policy: 'policy', keys: 'key set', access: 'access rule' }[result.document];
    renderVerdict('calm', `Not verified: the ${which} is refused`, `${result.fault}: ${sentence(err)}`, result.nearest === undefined ? undefined : `Is ${JSON.stringify(result.nearest)} meant?`);
  } else if (verdict === 'refused') {
    renderVerdict('bad', `Refused: ${result.fault}${result.claim === undefined ? '' : ` (${shown(result.claim)})`}`, sentence(err));
  } else renderVerdict('calm', 'Not verified', sentence(err) || shown(first(result.fault ?? '')));
  const odd = oddities(raw, read, now, keys.set);
  if (odd.length > 0) {
    fill('oddities', el('h2', {}, 'What is odd about it', el('small', {}, 'hints, which decide nothing')), el('ul', { class: 'odd' }, odd.map(([kind, what, why]) => el('li', { class: kind }, el('b', {}, what), ' ', why))));
    $('oddities').hidden = false;
  }
  renderContent(read, now, verdict);
  if (result?.signatures !== undefined) {
    const states = { Verified: 'verified', Barred: 'no key was tried', NoKey: 'no key suits', BadSignature: 'no key made it', NotReached: 'not reached', Stopped: 'stopped' };
    fill('trace', el('h2', {}, 'How it was judged'),
      el('table', {}, result.signatures.map(({ state, key, fault }, n) => el('tr', {}, el('th', { class: 'k', scope: 'row' }, `signature ${n}`), el('td', { class: 'v' }, `${states[state] ?? state}${fault === undefined ? '' : `: ${fault}`}${key === undefined ? '' : ` by key ${key}`}`))),
        el('tr', {}, el('th', { class: 'k', scope: 'row' }, 'cost'), el('td', { class: 'v' }, `${result.tries.length} ${result.tries.length === 1 ? 'try' : 'tries'} of a key, ${result.work} bytes through HMAC`))),
      el('h3', {}, 'The same on the command line'), el('pre', { class: 'command' }, ['fowharimu', ...asks].map(quote).join(' ')));
    $('trace').hidden = false;
  }
}

async function begin() {
  const packed = Uint8Array.from(atob($('wasm').textContent.trim()), (it) => it.charCodeAt(0));
  const bytes = await new Response(new Blob([packed]).stream().pipeThrough(new DecompressionStream('gzip'))).arrayBuffer();
  program = await WebAssembly.compile(bytes);
  const { out } = jwt(['--version']);
  $('about').textContent = `${BUILT}${out.trim().replace(/^jwt/, 'Fowharimu')}; compiled for WebAssembly, ${Math.round(bytes.byteLength / 1024)} KB.`;
  $('preset').append(el('option', { value: 'token' }, 'As the token says of itself'), el('option', { value: 'own' }, 'My own'), el('optgroup', { label: 'Profiles' }, Object.keys(PROFILES).map((name) => el('option', { value: name }, name))));
  $('preset').onchange = () => {
    const name = $('preset').value;
    if (name === 'token') $('policy').value = seed = '';
    else if (Object.hasOwn(PROFILES, name)) $('policy').value = PROFILES[name];
    judge();
  };
  let waiting;
  const soon = () => { clearTimeout(waiting); waiting = setTimeout(judge, 120); };
  for (const id of ['token', 'key', 'moment']) $(id).oninput = () => { colour($('token').value); soon(); };
  $('policy').oninput = () => { $('preset').value = 'own'; soon(); };
  $('token').onscroll = () => { $('coloured').scrollTop = $('token').scrollTop; };
  $('when').onchange = () => { $('moment').hidden = $('when').value === 'now'; judge(); };
  const show = ({ token, key, policy, preset = 'own', now }) => {
    $('token').value = token; $('key').value = key; $('preset').value = preset; $('policy').value = policy; seed = policy;
    $('when').value = now === undefined ? 'now' : 'then'; $('moment').value = now ?? ''; $('moment').hidden = now === undefined;
    judge();
  };
  $('clear').onclick = () => { show({ token: '', key: '', policy: '', preset: 'token' }); $('token').focus(); };
  $('examples').append(...EXAMPLES.map((it) => el('button', { type: 'button', class: it.accepted ? 'good' : 'bad', onclick: () => show(it) }, `${it.accepted ? 'Accepted' : 'Refused'}: ${it.label}`)));
  judge();
  setInterval(() => { if ($('when').value === 'now' && $('token').value.trim() !== '' && !document.hidden) judge(); }, 15000);
}
begin().catch((error) => renderVerdict('bad', 'This browser can’t run the validator', String(error)));
