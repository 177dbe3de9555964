// What index.d.ts says, as tsc --strict reads it: nothing of this is run.

import {
  ErrorBehavior,
  FIRST_VERSION,
  FieldError,
  Incomplete,
  Item,
  JournalError,
  JsonError,
  JsonValue,
  LAST_VERSION,
  Malformed,
  Message,
  MessageTooLong,
  Mismatch,
  NamedType,
  Notification,
  Numbering,
  NumberingError,
  Replay,
  SchemaName,
  SetStateCommandMessage,
  Stream,
  TypeName,
  Unknown,
  Value,
  Verdict,
  canonical,
  compareJournals,
  decode,
  difference,
  frame,
  fromJson,
  header,
  headerEq,
  isWellFormed,
  items,
  libraryVersion,
  merge,
  notification,
  readRecord,
  schema,
  schemaNames,
  toJson,
  typeCode,
  typeName,
  writeRecord,
} from 'pendratsoa';

/** Compiles where two types are the same. */
type Same<A, B> = (<T>() => T extends A ? 1 : 2) extends <T>() => T extends B ? 1 : 2 ? true : never;

const bytes = new Uint8Array(0);

/** What an item is, by its kind; each has only what it has. */
export function described(item: Item): string {
  switch (item.kind) {
    case 'message': {
      const type: TypeName = item.type;
      const json: JsonValue | undefined = item.json()['value'];
      const word: bigint | undefined = item.word;
      const length: number = item.bytes.length + item.frameInto(new Uint8Array(20), 9);
      // @ts-expect-error it cannot be changed
      item.payload = bytes;
      const read = `${type} ${item.schema + item.payload.length} ${item.requestedAck} ${json}`;
      return `${read} ${item.frame().length} ${word} ${length}`;
    }
    case 'unknownCode':
      // @ts-expect-error it has no payload
      item.payload;
      return `${item.code} ${item.word + 1n} ${item.bytes} ${item}`;
    case 'skipped':
      return `${item.code} ${item.word + 1n} ${item.payload.length}`;
  }
}

/** The record of one type, of any item; and where an item is. */
export function recorded(item: Item): string {
  const command = item.record('SetStateCommandMessage');
  const same: Same<typeof command, SetStateCommandMessage | undefined> = true;
  const offset: Same<Item['offset'], number | undefined> = true;
  // @ts-expect-error no message has a record of this name
  item.record('SetStatCommandMessage');
  // @ts-expect-error it is the record of a field
  item.record('Value');
  return `${command?.key} ${command?.value?.content} ${item.offset} ${same} ${offset}`;
}

/** A notification's id is a number or a name, by its kind. */
export function identified(found: Notification): number | string {
  const same: Same<Notification['result'], Uint8Array> = true;
  if (found.idKind === 'signalName') {
    return found.id.toUpperCase() + same;
  }
  // @ts-expect-error there is no such kind
  if (found.resultKind === 'nothing') {
    return 0;
  }
  return found.id + 1;
}

/** What the record of a message is, by the type of the message. */
export function read(item: Item): string | bigint | number | Uint8Array | undefined {
  if (item.kind !== 'message') {
    return undefined;
  }
  // @ts-expect-error there is no such type
  if (item.type === 'SetStatCommand') {
    return undefined;
  }
  switch (item.type) {
    case 'SetStateCommand':
      // @ts-expect-error there is no such field
      item.message.valu;
      // @ts-expect-error it may be absent
      item.message.value.content;
      return item.message.value?.content;
    case 'SleepCommand':
      return item.message.wakeUpTime + 1n;
    case 'SignalNotification': {
      const { signalId, result } = item.message;
      if (result?.case === 'failure') {
        return result.value.message;
      }
      return signalId?.case === 'idx' ? signalId.value + 1 : signalId?.value.toUpperCase();
    }
    case 'Error':
      return item.message.behavior === ErrorBehavior.PAUSE ? item.message.relatedCommandIndex : 0;
    default:
      return item.type.length;
  }
}

/** The record of a message whose parts were taken, by its type. */
export function readParts(item: Item): Uint8Array | undefined {
  if (item.kind !== 'message') {
    return undefined;
  }
  const { type, message } = item;
  return type === 'SetStateCommand' ? message.value?.content : undefined;
}

/** A custom entry has no record. */
export function isCustomEntry(item: Item): boolean {
  const custom: Same<Message<`CustomEntry(${number})`>['message'], undefined> = true;
  const setState: Same<Message<'SetStateCommand'>['message'], SetStateCommandMessage> = true;
  if (item.kind !== 'message') {
    return custom && setState;
  }
  // @ts-expect-error it may be that of a custom entry
  item.message.toString();
  return item.message === undefined;
}

export function made(): Uint8Array[] {
  const command: SetStateCommandMessage = { key: bytes, value: { content: bytes }, name: '' };
  const changed: SetStateCommandMessage = { ...command, value: { content: new Uint8Array(1) } };
  // @ts-expect-error there is no such field
  Message.of('SetStateCommand', { valu: command.value });
  // @ts-expect-error a number of 64 bits is a bigint
  Message.of('SleepCommand', { wakeUpTime: 5 });
  // @ts-expect-error there is no such member
  Message.of('OutputCommand', { result: { case: 'values', value: {} } });
  // @ts-expect-error it cannot be changed
  command.key = bytes;
  const same: Same<ReturnType<typeof readRecord<'Value'>>, Value> = true;
  return [
    Message.of('SetStateCommand', changed, 9).frame(),
    Message.of('OutputCommand', { result: { case: 'value', value: { content: bytes } } }).frame(),
    writeRecord('Future', { nestedFutures: [{ waitingSignals: [1] }, {}] }),
    readRecord('Value', bytes).content,
    bytes.subarray(Number(same)),
  ];
}

/** A message of JSON is typed if its type is given by a name. */
export function ofJson(code: number, name: NamedType): Message[] {
  const command = Message.fromJson('SetStateCommand', '{}');
  const typed: Same<typeof command, Message<'SetStateCommand'>> = true;
  const ofCode = Message.fromJson(code, '{}', 9);
  const any: Same<typeof ofCode, Message> = true;
  // @ts-expect-error there is no such field
  command.message.valu;
  // @ts-expect-error there is no such type
  Message.fromJson('SetStatCommand', '{}');
  const length: number | undefined = command.message.value?.content.length;
  const either: number | NamedType = typed && any && length === 0 ? code : name;
  const make: (type: number | NamedType, json: string) => Message = Message.fromJson;
  return [command, ofCode, Message.fromJson(name, '{}'), Message.fromJson(either, '{}'), make(code, '{}')];
}

export async function streams(): Promise<void> {
  const stream = new Stream();
  stream.feed(bytes);
  for (const item of stream) {
    described(item);
  }
  const rest: number = stream.rest + new Stream(FIRST_VERSION).version + stream.trailing.length;
  // @ts-expect-error a text is not a chunk
  stream.feed('text');
  stream.finish();
  // @ts-expect-error the rest cannot be set
  stream.rest = rest;
  // @ts-expect-error nor can these bytes
  stream.trailing = bytes;
  for await (const item of items([bytes], LAST_VERSION)) {
    described(item);
  }
  for await (const item of items([bytes], LAST_VERSION, { strict: false, maxMessageSize: 8 })) {
    described(item);
  }
  // @ts-expect-error a stream that is fed has no end by itself
  new Stream(8, { strict: false });
  const transform: TransformStream<Uint8Array, Item> = decode(8, { strict: true });
  await transform.readable.getReader().read();
}

export function calls(): void {
  const texts: string[] = [libraryVersion(), typeName(0), toJson(0, bytes), difference(0x0400, bytes, bytes)];
  const numbers: number[] = [schema(8, 0), typeCode(texts[0] ?? '')];
  const arrays: Uint8Array[] = [
    header(8, 0, 0),
    frame(8, 0, bytes),
    canonical('Value', bytes),
    merge(numbers[0] ?? 0, bytes, bytes),
    new Message(8, 0, bytes).canonical(),
    fromJson('Value', '{}'),
    fromJson(1, bytes),
    Message.fromJson('SleepCommand', { wakeUpTime: 5 }).payload,
    Message.fromJson(8, '{}', LAST_VERSION).payload,
  ];
  const flags: boolean[] = [
    isWellFormed('Void', arrays[0] ?? bytes),
    headerEq(0x0400, bytes, bytes),
    headerEq(0x0400, bytes, bytes, { ignorePayloads: true }),
  ];
  const verdict: Verdict = compareJournals(8, bytes, bytes, { ignorePayloads: flags[0] ?? false });
  const index: Same<Verdict['index'], number> = true;
  const name: SchemaName | undefined = schemaNames[verdict.index];
  identified(notification(0xfbff, bytes));
  // @ts-expect-error there is no such schema
  canonical('Values', bytes);
  // @ts-expect-error a number is not a text
  fromJson('Value', 5);
  // @ts-expect-error the flag of a new message is that of its type
  new Message(8, 0, bytes, true);
  // @ts-expect-error a version is a number
  schema('8', index);
  // @ts-expect-error the names are constant
  schemaNames[0] = name;
  // @ts-expect-error an option that there is not
  headerEq(0x0400, bytes, bytes, { ignorePayload: true });
}

export function checkedReplay(bytes: Uint8Array, item: Item): string {
  const replay = new Replay(8, bytes, { ignorePayloads: true, ignoreIds: true });
  const mismatch: Mismatch | undefined = replay.check(item) ?? replay.finish();
  const offset: Same<Mismatch['recordedOffset'], number | undefined> = true;
  const key = replay.expected()?.record('SetStateCommandMessage')?.key.length;
  const next: Message | undefined = replay.expected();
  const expected = replay.expected();
  const name = expected?.type === 'SleepCommand' ? expected.message.wakeUpTime + 1n : next?.type;
  const rest: Same<Replay['recordedRest'], number> = true;
  // @ts-expect-error it cannot be set
  replay.recordedRest = 0;
  // @ts-expect-error a mismatch is not the same
  const isSame = mismatch?.kind === 'same';
  // @ts-expect-error an item, and not its bytes
  replay.check(bytes);
  const names = mismatch?.fields.map((field) => `${field.name}: ${field.recorded} and ${field.replayed}`);
  const place = `${mismatch?.index} ${mismatch?.replayedOffset} ${offset} ${replay.recordedRest} ${rest}`;
  return `${place} ${key} ${name} ${isSame} ${names?.join()}`;
}

export function renumbered(set: Uint8Array): Uint8Array[] {
  const numbering = new Numbering(set, { renames: { Pause: 'SleepCommandMessage' } });
  const stream = new Stream(8, { maxMessageSize: 5, numbering });
  const lines: string = numbering.dump(8, set);
  // an option that is undefined is left out
  new Stream(8, { maxMessageSize: undefined, numbering: undefined });
  new Replay(8, set, { ignorePayloads: undefined, ignoreIds: undefined });
  new Numbering(set, { renames: undefined });
  // @ts-expect-error a set is bytes
  new Numbering('set.binpb');
  // @ts-expect-error a name is a text
  new Numbering(set, { renames: { Pause: 5 } });
  // @ts-expect-error there is no such schema
  numbering.readPayload('Values', set);
  // @ts-expect-error it is not a numbering
  frame(8, 0, bytes, { numbering: set });
  return [
    numbering.readPayload('Value', bytes),
    numbering.writePayload(1, bytes),
    numbering.readStream(LAST_VERSION, bytes),
    numbering.writeStream(8, frame(8, 0, bytes, { numbering })),
    new Message(8, 0, bytes).frame(8, { numbering: Numbering.load(lines) }),
    ...Array.from(stream, (item) => item.bytes),
  ];
}

export function caught(error: unknown): string {
  if (error instanceof Malformed) {
    const code: 'JOURNAL_MALFORMED' = error.code;
    const place: Same<Malformed['offset'] | Malformed['typeCode'], number | undefined> = true;
    return `${code} ${error.offset} ${error.typeCode} ${place}`;
  }
  if (error instanceof JsonError) {
    const offset: Same<JsonError['offset'], number | undefined> = true;
    return error.reason === 'notJson' ? `${error.offset} ${offset}` : error.path;
  }
  if (error instanceof FieldError) {
    return error.reason === 'notUtf8' ? error.path : error.reason;
  }
  if (error instanceof NumberingError) {
    return error.reason === 'noRename' ? error.text : error.code;
  }
  if (error instanceof Incomplete) {
    const trailing: Same<Incomplete['trailing'], Uint8Array> = true;
    return (error.rest + error.offset + (error.typeCode ?? 0)).toFixed() + trailing;
  }
  if (error instanceof MessageTooLong) {
    const code: 'JOURNAL_TOO_LONG' = error.code;
    const trailing: Same<MessageTooLong['trailing'], Uint8Array> = true;
    return code + (error.typeCode + error.length + error.limit + error.offset).toFixed() + trailing;
  }
  if (error instanceof Unknown || error instanceof JournalError) {
    return `${error.argument ?? ''} ${String(error.value)} ${error.message}`;
  }
  return '';
}
