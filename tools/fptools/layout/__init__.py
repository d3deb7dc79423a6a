"""The order of compiled blocks, with the debugger's tables, and the records of loop marks."""
