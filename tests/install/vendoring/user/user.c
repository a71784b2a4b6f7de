unsigned core_version(void);
int main(void) { return core_version() == 1 ? 0 : 1; }
