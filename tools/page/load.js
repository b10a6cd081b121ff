'use strict';
// The page's scripts in node, without a document: the object Cepage, with all that needs none. The files and their order
// are those of docs/page/index.html.

const fs = require('fs');
const path = require('path');
const vm = require('vm');

const PAGE = path.resolve(__dirname, '..', '..', 'docs', 'page');

function scripts() {
  const text = fs.readFileSync(path.join(PAGE, 'index.html'), 'utf8');
  return [...text.matchAll(/<script src="([^"]+)">/g)].map((found) => found[1]);
}

function load() {
  for (const file of scripts()) {
    if (file.startsWith('browser/')) continue;
    vm.runInThisContext(fs.readFileSync(path.join(PAGE, file), 'utf8'), file);
  }
  return globalThis.Cepage;
}

module.exports = { load, PAGE };
