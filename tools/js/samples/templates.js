use(``, `plain`, `one ${a} two ${b + c}`, `${a}${b}`, `nested ${`deep ${`deeper`}`}`, `\${no} \` \n`);
use(tag`cooked ${a}`, tag`\unicode and \xerxes`, tag.member`x``y`, `over
two lines ${{ a }.a}`, new tag`z`);
