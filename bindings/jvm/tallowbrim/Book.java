package tallowbrim;

/** A policy book that is lawful: how many main lines it has, and how many quick lines. */
public record Book(int main, int quick) {}
