// What a form sent: the entries of a URL's query, or of a body.
const URLENCODED = "application/x-www-form-urlencoded";
const MULTIPART = "multipart/form-data; boundary=";
const NAME = '\r\nContent-Disposition: form-data; name="';

/** The names and values, in order: of the query where there is no body. Null where they can't be told. */
export function entriesSent(url, mediaType, body) {
  if (mediaType === null || body === null) return urlencoded(url.split("#", 1)[0].split(/\?(.*)/s)[1] ?? "");
  if (mediaType === URLENCODED) return urlencoded(body);
  if (mediaType === "text/plain") return plain(body);
  return mediaType.startsWith(MULTIPART) ? multipart(body, mediaType.slice(MULTIPART.length)) : null;
}

function urlencoded(text) {
  return [...new URLSearchParams(`?${text}`)];
}

// A line for each entry. A name with `=`, or a line end in a name or a value, makes it the body of other entries, or of none.
function plain(body) {
  const lines = body.split("\r\n");
  if (lines.pop() !== "") return null;
  return allCut(lines, "=");
}

// The parts between the boundaries. In a name `%22`, `%0D` and `%0A` stay as they were sent: they may have been typed.
function multipart(body, boundary) {
  const [first, ...parts] = `\r\n${body}`.split(`\r\n--${boundary}`);
  if (first !== "" || parts.pop() !== "--\r\n" || !parts.every((part) => part.startsWith(NAME))) return null;
  return allCut(parts.map((part) => part.slice(NAME.length)), '"\r\n\r\n');
}

// Each text cut in two at the first of these signs, or null where one has none.
function allCut(texts, sign) {
  if (!texts.every((text) => text.includes(sign))) return null;
  return texts.map((text) => [text.slice(0, text.indexOf(sign)), text.slice(text.indexOf(sign) + sign.length)]);
}
