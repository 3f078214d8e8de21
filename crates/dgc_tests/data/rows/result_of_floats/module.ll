define dso_local double @f(double noundef %0) {
