;
{}
{ let a; { var b; } function c() {} }
debugger;
if (a) function d() {}
