@e = external dso_local local_unnamed_addr global i32, align 4
