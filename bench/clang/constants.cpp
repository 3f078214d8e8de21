// Constants and variables of a template, each in a comdat of its own.
template <int N> struct holder { static int kept; };
template <int N> int holder<N>::kept = N;
int use() { return holder<3>::kept++ + holder<4>::kept++; }
