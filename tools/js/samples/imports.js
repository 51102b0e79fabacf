import 'only';
import {} from 'nothing';
import all from 'a';
import * as space from 'b';
import { one, two as deux, 'quoted name' as three, default as four, } from 'c';
import five, { six } from "d";
import seven, * as eight from 'e';
use(import('f'), import(g), import.meta.url);
