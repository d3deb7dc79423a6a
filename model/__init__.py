"""An executable model of the machine, its files and its bounds, written independently of the proved program."""
