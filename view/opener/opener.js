// The page that opens journals: a worker decodes them by the module that is in this page, and the page of journal view
// shows what it finds. The worker, that page's script and the module are texts here until then.
{
  const part = (id) => document.getElementById(id);
  const policy = globalThis.trustedTypes?.createPolicy("journal-view", {
    createScript: (text) => text,
    createScriptURL: (text) => text,
  }) ?? { createScript: (text) => text, createScriptURL: (text) => text };
  const { versions, ...protocol } = JSON.parse(part("protocol").textContent);
  const says = (text) => { part("opener-says").textContent = text; };

  const [first, last] = versions;
  for (let version = first; version <= last; version += 1) {
    part("version").append(new Option(String(version), String(version), version === 8, version === 8));
  }

  /** The types with their messages at a version, as view/make_page.py has them. */
  function messagesAt(version) {
    const types = Object.entries(protocol.types).map(([name, { direction, message, before = {} }]) => {
      const [earlier] = Object.entries(before).filter(([end]) => version < Number(end));
      return [name, { direction, message: earlier ? earlier[1] : message }];
    });
    return { types: Object.fromEntries(types), messages: protocol.messages };
  }

  function scriptElement(text, { type, id }) {
    const script = document.createElement("script");
    if (type) script.type = type;
    if (id) script.id = id;
    script.text = policy.createScript(text);
    return script;
  }

  /** Turns this page into that of journal view, with what the worker found. */
  function show(about, lines) {
    const title = about.journals.map(({ name }) => name).join(" and ");
    const page = part("page").content;
    const code = part("page-script").textContent;
    document.title = title;
    page.querySelector("h1").textContent = title;
    document.body.replaceChildren(page);
    document.body.append(scriptElement(JSON.stringify(about), { type: "application/json", id: "about" }));
    lines.forEach((text, side) => {
      document.body.append(scriptElement(text, { type: "application/json", id: `journal-${side}` }));
    });
    document.body.append(scriptElement(code, {}));
  }

  /** Puts a file into a field. */
  function choose(field, file) {
    const chosen = new DataTransfer();
    chosen.items.add(file);
    field.files = chosen.files;
  }

  /** Whether a file begins as a descriptor set does: with its field 1. */
  async function isSchema(file) {
    try {
      return new Uint8Array(await file.slice(0, 1).arrayBuffer())[0] === 0x0a;
    } catch {
      return false;
    }
  }

  /** Takes files: the schemas into their field, and opens the others. */
  async function take(files) {
    const found = await Promise.all(files.map(isSchema));
    const schema = files.findLast((_, place) => found[place]);
    const streams = files.filter((_, place) => !found[place]);
    if (schema) choose(part("schema"), schema);
    if (streams.length > 0) open(streams.slice(0, 2));
    else says(`${schema.name} is the schema. Now the stream, or two.`);
  }

  let worker;

  /** Opens one file, or two. */
  function open(files) {
    worker?.terminate();
    const [schema] = part("schema").files;
    const renames = part("renames").value.trim().split(/\s+/).join("\n");
    const version = Number(part("version").value);
    const ignoresPayloads = part("ignore-payloads").checked;
    const script = new Blob([part("worker-script").textContent], { type: "text/javascript" });
    const address = URL.createObjectURL(script);
    says("Reading ..");
    worker = new Worker(policy.createScriptURL(address));
    worker.onerror = (event) => says(`It cannot be read: ${event.message}`);
    worker.onmessage = ({ data }) => {
      if (data.progress) {
        says(data.progress);
        return;
      }
      worker.terminate();
      URL.revokeObjectURL(address);
      if (data.refused) {
        says(data.refused);
      } else {
        const about = { version, ignoresPayloads, schema: schema?.name, script: null, ...data.about };
        show({ ...about, ...messagesAt(version) }, data.lines);
      }
    };
    const units = atob(part("module").textContent);
    const module = new Uint8Array(units.length);
    for (let at = 0; at < units.length; at += 1) module[at] = units.charCodeAt(at);
    const { types } = messagesAt(version);
    worker.postMessage({ module, files, schema, renames, version, ignoresPayloads, types }, [module.buffer]);
  }

  part("opener").addEventListener("submit", (event) => {
    event.preventDefault();
    open(["recorded", "replayed"].flatMap((id) => [...part(id).files]));
  });
  document.addEventListener("dragover", (event) => event.preventDefault());
  document.addEventListener("drop", (event) => {
    event.preventDefault();
    const files = [...event.dataTransfer.files];
    if (!part("opener") || files.length === 0) return;
    const field = event.target.closest?.("label")?.querySelector("[type=file]");
    if (field) choose(field, files[0]);
    else take(files);
  });
}
