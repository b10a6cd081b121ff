// What a line of a transcript sends: the form, the URL, and the names and values in it; or what blocks it. Null of another line.
export async function sent(line) {
  const found = /^submit #(\d+) (get|post|blocked) (.*)$/s.exec(line);
  if (!found) return null;
  const [form, method] = [Number(found[1]), found[2]];
  if (method === "blocked") return { form, method, cause: found[3] };
  const [url, type, body] = quotedTexts(found[3]);
  const text = method === "get" ? new URL(url).search.slice(1) : body;
  return { form, method, url, type, body, entries: await entries(type ?? "application/x-www-form-urlencoded", text) };
}

// The quoted texts of a line. Their escapes are those of JSON, but for `\u{h}`. A backslash and a quote in a text are first
// written by their numbers, so that each quote that is left begins or ends a text.
function quotedTexts(line) {
  const numbered = line.replaceAll("\\\\", "\\u005c").replaceAll('\\"', "\\u0022");
  const escaped = numbered.replace(/\\u\{([0-9a-f]+)\}/g, (all, h) => `\\u${h.padStart(4, "0")}`);
  return escaped.match(/"[^"]*"/g).map((text) => JSON.parse(text));
}

// A text/plain body can't be taken apart in general: it is left as it is.
async function entries(type, text) {
  if (type === "text/plain") return null;
  const data = await new Response(text, { headers: { "content-type": type } }).formData();
  return [...data];
}
