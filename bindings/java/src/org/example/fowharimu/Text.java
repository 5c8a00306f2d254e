package org.example.fowharimu;

import java.io.ByteArrayOutputStream;
import java.nio.charset.StandardCharsets;

/** Texts as octets in UTF-8, and back. */
final class Text {
    private Text() {}

    /**
     * The octets of a text. A surrogate that stands alone, which UTF-8 doesn't have, becomes octets that the library refuses, where Java would
     * write a question mark.
     */
    static byte[] octets(String text) {
        byte[] octets = text.getBytes(StandardCharsets.UTF_8);
        return new String(octets, StandardCharsets.UTF_8).equals(text) ? octets : units(text);
    }

    /** The text of octets that are in UTF-8; null for none. */
    static String of(byte[] octets) {
        return octets == null ? null : new String(octets, StandardCharsets.UTF_8);
    }

    private static byte[] units(String text) {
        ByteArrayOutputStream out = new ByteArrayOutputStream(3 * text.length());
        text.codePoints().forEach(it -> out.writeBytes(unit(it)));
        return out.toByteArray();
    }

    private static byte[] unit(int point) {
        if (point < Character.MIN_SURROGATE || point > Character.MAX_SURROGATE) {
            return Character.toString(point).getBytes(StandardCharsets.UTF_8);
        }
        return new byte[] {(byte) (0xe0 | point >> 12), (byte) (0x80 | (point >> 6 & 0x3f)), (byte) (0x80 | (point & 0x3f))};
    }
}
