%T = type { %T }
}