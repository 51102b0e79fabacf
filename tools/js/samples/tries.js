try { a; } catch { b; }
try { a; } catch (error) { throw error; }
try { a; } catch ({ message, stack: [first] }) {} finally { b; }
try {} finally {}
throw new Error('a');
