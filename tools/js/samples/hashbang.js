#!/usr/bin/env node --flag
use(1);
