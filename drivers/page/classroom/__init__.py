"""The classroom's server: a page over the proved program's jobs, each in a child process. It needs nothing but the
standard library."""
