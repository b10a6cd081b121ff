'use strict';
// Scripts whose elements would fetch something, or go elsewhere: a server on this machine has to hear nothing. The
// policy of the frame blocks them; a request that is blocked is told by the browser all the same, so it is the server
// that is asked.

const http = require('http');

const page = (name, attributes, behind = '') => `create $html html
append doc $html
create $e ${name}
${Object.entries(attributes).map(([key, value]) => `setattr $e ${key} "${value}"\n`).join('')}${behind}append $html $e
`;
const within = (text) => `text $t "${text}"\nappend $e $t\n`;
const pressed = 'create $b button\nappend $e $b\n';

const scriptsFor = (url) => [
  page('img', { src: url }), page('iframe', { src: url }), page('script', { src: url }), page('object', { data: url }),
  page('embed', { src: url }), page('video', { src: url, poster: url }), page('body', { background: url }),
  page('input', { type: 'image', src: url }), page('a', { href: url, ping: url }), page('base', { href: url }),
  page('script', {}, within(`location.href = '${url}'`)),
  page('style', {}, within(`@import url(${url}); html { background: url(${url}) }`)),
  page('div', { style: `width: 9px; height: 9px; background: url(${url})` }),
  page('iframe', { srcdoc: `<img src=${url}><meta http-equiv=refresh content='0;url=${url}'>` }),
  page('link', { href: url, rel: 'stylesheet' }), page('meta', { content: `0;url=${url}`, 'http-equiv': 'refresh' }),
  `${page('button', { onclick: `location.href = '${url}'` })}user press $e\n`,
  `${page('form', { action: url, target: '_top' }, pressed)}user press $b\nsubmit $e\nrequest $e\n`,
  `${page('form', { action: url, method: 'post' }, pressed)}user press $b\nsubmit $e\nrequest $e\n`,
];

async function checkLeaving(tab) {
  const heard = [];
  const server = http.createServer((request, response) => {
    heard.push(request.url);
    response.end();
  });
  await new Promise((resolve) => server.listen(0, '127.0.0.1', resolve));
  const scripts = scriptsFor(`http://127.0.0.1:${server.address().port}/heard`);
  const title = await tab.evaluate('document.title');
  for (const script of scripts) await tab.evaluate((text) => CepageBrowser.run(text), script);
  await new Promise((resolve) => setTimeout(resolve, 500));
  server.close();
  server.closeAllConnections();
  console.log(`${scripts.length} scripts that would fetch or go elsewhere: the server heard ${heard.length} requests`);
  const isMoved = await tab.evaluate('document.title') !== title;
  return [...heard.map((url) => `a request left the page: ${url}`), ...(isMoved ? ['the page went elsewhere'] : [])];
}

module.exports = { checkLeaving };
