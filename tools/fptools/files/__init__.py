"""The files that tools read: setups, images, executables, maps, sources, traces, dumps."""
