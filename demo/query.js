'use strict';
// The query of an address: its fields decoded, one of them changed, and all of them written again.
const address = 'https://example.org/find?q=caf%C3%A9+%26+cr%C3%A8me&page=2&tags=a%2Cb%2C%F0%9F%8D%B0&sort=&debug#top';
const query = address.slice(address.indexOf('?') + 1).split('#')[0];
const fields = query.split('&');

print('NAME'.padEnd(8) + 'VALUE');
let written = '';
for (let i = 0; i < 20; i++) {
  if (i < fields.length) {
    // What stands behind the first = is the value; in a query a + is a blank.
    const at = fields[i].indexOf('=');
    const end = at < 0 ? fields[i].length : at;
    const name = decodeURIComponent(fields[i].slice(0, end).replaceAll('+', ' '));
    let value = decodeURIComponent(fields[i].slice(end + 1).replaceAll('+', ' '));
    print(name.padEnd(8) + JSON.stringify(value));
    if (name === 'page') {
      value = 'three & four';
    }
    written += (i > 0 ? '&' : '?') + encodeURIComponent(name);
    if (at >= 0) {
      written += '=' + encodeURIComponent(value);
    }
  }
}
print(address.split('?')[0] + written);

// A whole address: encodeURI leaves the marks that have a meaning in it, decodeURI their escapes.
print(encodeURI('https://example.org/caf\u00e9 menu?q=\u{1F370}#top'));
print(decodeURI('https://example.org/a%20b%2Fc?q=%F0%9F%8D%B0%26'));
