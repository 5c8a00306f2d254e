package org.example.fowharimu;

import java.io.IOException;

/** A key set can't be fetched, and none was before. {@link #getCause} is why. */
public final class KeysUnavailable extends IOException {
    private static final long serialVersionUID = 1;

    KeysUnavailable(Exception why) {
        super("the key set can't be fetched: " + why.getMessage(), why);
    }
}
