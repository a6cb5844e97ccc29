// Jetty with a servlet that counts in its session, for bench/java: java JettyLoad CLIENTS REQUESTS.
import java.io.IOException;
import javax.servlet.http.HttpServlet;
import javax.servlet.http.HttpServletRequest;
import javax.servlet.http.HttpServletResponse;
import org.eclipse.jetty.server.Server;
import org.eclipse.jetty.server.ServerConnector;
import org.eclipse.jetty.servlet.ServletContextHandler;
import org.eclipse.jetty.servlet.ServletHolder;

class JettyLoad {
    static class Counter extends HttpServlet {
        private static final long serialVersionUID = 1;
        private int count;

        @Override
        protected synchronized void doGet(HttpServletRequest request, HttpServletResponse response) throws IOException {
            request.getSession().setAttribute("count", ++count);
            response.getWriter().println(count);
        }
    }

    public static void main(String[] words) throws Exception {
        Server server = new Server(0);
        ServletContextHandler context = new ServletContextHandler(ServletContextHandler.SESSIONS);
        context.addServlet(new ServletHolder(new Counter()), "/");
        server.setHandler(context);
        server.start();
        Loads.ask(((ServerConnector) server.getConnectors()[0]).getLocalPort(), Integer.parseInt(words[0]), Integer.parseInt(words[1]));
        server.stop();
    }
}
