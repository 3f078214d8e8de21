%"a b" = type { ptr }
