const fs = require('fs');
if (!fs) return;
module.exports = { fs };
return fs
