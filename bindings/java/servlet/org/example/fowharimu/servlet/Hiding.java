package org.example.fowharimu.servlet;

import jakarta.servlet.http.HttpServletRequest;
import jakarta.servlet.http.HttpServletRequestWrapper;
import java.util.Collections;
import java.util.Enumeration;
import java.util.List;

/** A request without its headers {@code Authorization} and {@code DPoP}. */
final class Hiding extends HttpServletRequestWrapper {
    private static boolean isHidden(String name) {
        return "Authorization".equalsIgnoreCase(name) || "DPoP".equalsIgnoreCase(name);
    }

    Hiding(HttpServletRequest request) {
        super(request);
    }

    @Override
    public String getHeader(String name) {
        return isHidden(name) ? null : super.getHeader(name);
    }

    @Override
    public Enumeration<String> getHeaders(String name) {
        return isHidden(name) ? Collections.emptyEnumeration() : super.getHeaders(name);
    }

    @Override
    public long getDateHeader(String name) {
        return isHidden(name) ? -1 : super.getDateHeader(name);
    }

    @Override
    public int getIntHeader(String name) {
        return isHidden(name) ? -1 : super.getIntHeader(name);
    }

    @Override
    public Enumeration<String> getHeaderNames() {
        List<String> names = Collections.list(super.getHeaderNames());
        names.removeIf(Hiding::isHidden);
        return Collections.enumeration(names);
    }
}
