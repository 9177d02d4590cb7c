"""The processors that packages are made for."""
from dataclasses import dataclass


@dataclass(frozen=True)
class Architecture:
    """A processor by its names: Debian's, the kit's, and that of GNU's tools; the sentence that says on which machines
    the programs run; and the words that go before a program of it here."""
    debian: str
    target: str
    gnu: str
    needs: str
    around: tuple = ()

    @property
    def name(self):
        """The processor alone, as x86_64."""
        return self.target.partition("-")[0]

    @property
    def libraries(self):
        """Where Debian has the libraries for it."""
        return f"usr/lib/{self.gnu}"

    def tool(self, name):
        """The tool of GNU's that is for it, as `strip`."""
        return f"{self.gnu}-{name}"


ARM64 = Architecture("arm64", "aarch64-unknown-linux-gnu", "aarch64-linux-gnu",
                     "It runs on every 64-bit ARM processor.", ("qemu-aarch64", "-L", "/usr/aarch64-linux-gnu"))
AMD64 = Architecture("amd64", "x86_64-unknown-linux-gnu", "x86_64-linux-gnu",
                     "The processor has to be an x86-64 with SSE4.1.")
ALL = {each.debian: each for each in (ARM64, AMD64)}
