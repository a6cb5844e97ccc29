// Tomcat with a servlet that counts in its session, for bench/java: java TomcatLoad CLIENTS REQUESTS.
import jakarta.servlet.http.HttpServlet;
import jakarta.servlet.http.HttpServletRequest;
import jakarta.servlet.http.HttpServletResponse;
import java.io.IOException;
import org.apache.catalina.Context;
import org.apache.catalina.startup.Tomcat;

class TomcatLoad {
    static class Counter extends HttpServlet {
        private static final long serialVersionUID = 1;
        private int count;

        @Override
        protected synchronized void doGet(HttpServletRequest request, HttpServletResponse response) throws IOException {
            request.getSession().setAttribute("count", ++count);
            response.getWriter().println(count);
        }
    }

    public static void main(String[] words) throws Exception {
        Tomcat tomcat = new Tomcat();
        tomcat.setBaseDir("tomcat");
        tomcat.setPort(0);
        tomcat.getConnector();
        Context context = tomcat.addContext("", null);
        Tomcat.addServlet(context, "counter", new Counter());
        context.addServletMappingDecoded("/", "counter");
        tomcat.start();
        Loads.ask(tomcat.getConnector().getLocalPort(), Integer.parseInt(words[0]), Integer.parseInt(words[1]));
        tomcat.stop();
        tomcat.destroy();
    }
}
