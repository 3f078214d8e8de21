%struct.S = type opaque
