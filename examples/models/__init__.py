"""The examples: what each file models, the diagram that builds it, and the answer it gets."""

from . import bits, counter, handing, pages, peterson, refused, ring

EXAMPLES = (counter.EXAMPLES + peterson.EXAMPLES + pages.EXAMPLES + ring.EXAMPLES + bits.EXAMPLES
            + handing.EXAMPLES + refused.EXAMPLES)
