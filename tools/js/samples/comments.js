/* before */ let a /* name */ = /* value */ 1; // after
use({ [/*[*/ a /*]*/]: a?./*[*/[/*[*/ a /*]*/] }); <!-- an old one
--> and another
