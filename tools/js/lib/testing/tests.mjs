// All tests, and how they are told.
import { whyNoParser } from '../parser.mjs';
import { COMMANDS, WITH_JSBASE } from './commands.mjs';
import { NUMBERS } from './numbers.mjs';
import { WITH_MUCWATHI } from './program.mjs';
import { ROUND_TRIPS } from './round_trip.mjs';

function passes([name, test]) {
  try {
    test();
    return true;
  } catch (error) {
    console.log(`failed: ${name}\n${error.message}`);
    return false;
  }
}

function runThese(tests, skipped, why) {
  const passed = tests.filter(passes).length;
  const failed = tests.length - passed;
  for (const name of skipped) {
    console.log(`skipped, ${why}: ${name}`);
  }
  console.log(`${passed} passed, ${failed} failed`);
  return failed === 0 ? 0 : 1;
}

/** Runs every test, and answers the exit status. */
export function runAll() {
  const tests = [...WITH_JSBASE.tests, ...WITH_MUCWATHI.tests];
  const skipped = [...WITH_JSBASE.skipped, ...WITH_MUCWATHI.skipped];
  return runThese([...ROUND_TRIPS, ...NUMBERS, ...COMMANDS, ...tests], skipped, 'since the program is not built');
}

/** Runs the tests that need no program, or says why it runs none, and answers the exit status. */
export function runInGate() {
  const missing = whyNoParser();
  if (missing) {
    console.log(`tools/js/test: skipped, ${missing}`);
    return 0;
  }
  console.log('tools/js/test:');
  const names = [WITH_JSBASE, WITH_MUCWATHI].flatMap(({ tests, skipped }) => [...tests.map(([name]) => name), ...skipped]);
  return runThese([...ROUND_TRIPS, ...NUMBERS, ...COMMANDS], names, 'since the gate runs no program by hand');
}
