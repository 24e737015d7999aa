'use strict';
const names = ['pear', 'fig'];
print(names.length);
