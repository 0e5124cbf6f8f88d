// Makes packed calls again on a module, and compares what it answers with what stands behind each: packing.py says how they are packed.
class Reader {
  #bytes;
  #view;
  at = 0;

  constructor(bytes) {
    this.#bytes = bytes;
    this.#view = new DataView(bytes.buffer, bytes.byteOffset, bytes.length);
  }

  get isDone() { return this.at >= this.#bytes.length; }

  number() {
    this.at += 4;
    return this.#view.getUint32(this.at - 4, true);
  }

  // The next part; null where it is a folder.
  part() {
    const length = this.number();
    if (length === 0xffffffff) return null;
    this.at += length;
    return this.#bytes.subarray(this.at - length, this.at);
  }

  many(read) { return Array.from({length: this.number()}, read); }
}

const textOf = bytes => new TextDecoder().decode(bytes);
const areSame = (left, right) => left.length === right.length && left.every((byte, i) => byte === right[i]);

function differenceOf(answer, status, out, err) {
  if (answer.fault) return answer.fault;
  if (answer.status !== status) return `status ${answer.status}, wanted ${status}`;
  if (!areSame(answer.out, out)) return `output ${textOf(answer.out).slice(0, 100)}, wanted ${textOf(out).slice(0, 100)}`;
  return areSame(answer.err, err) ? '' : `error ${textOf(answer.err).slice(0, 100)}, wanted ${textOf(err).slice(0, 100)}`;
}

// How many calls are answered as they should be, and a text for each other: {same, different}.
export function replay(runProgram, module, bytes) {
  const reader = new Reader(bytes), said = {same: 0, different: []};
  while (!reader.isDone) {
    const words = reader.many(() => reader.part());
    const files = Object.assign(Object.create(null), Object.fromEntries(reader.many(() => [textOf(reader.part()), reader.part()])));
    const input = reader.part(), status = reader.number(), out = reader.part(), err = reader.part();
    const difference = differenceOf(runProgram(module, words, files, input), status, out, err);
    if (difference) said.different.push(`${words.map(textOf).join(' ').slice(0, 100)}: ${difference}`);
    else said.same++;
  }
  return said;
}
